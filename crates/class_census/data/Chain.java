/** A list, compiled with all that a debugger wants. */
class Chain<T extends Comparable<T>> {
    private static final class Link<T> {
        T value;
        Link<T> next;
    }

    private Link<T> first;
    private int length;

    void push(T value) {
        Link<T> link = new Link<T>();
        link.value = value;
        link.next = first;
        first = link;
        length++;
    }

    T most() {
        T most = null;
        for (Link<T> link = first; link != null; link = link.next) {
            if (most == null || link.value.compareTo(most) > 0) {
                most = link.value;
            }
        }
        return most;
    }

    int length() {
        return length;
    }
}

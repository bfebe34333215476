/** Assignments whose value is used again: the forms of dup and pop. */
class Places {
    int number;
    long wide;
    byte small;
    static long last;
    static int count;
    Places next;

    int post() {
        return number++ + ++number + small--;
    }

    long longs(long x) {
        long old = wide++;
        last = wide += x;
        return (wide = last = old) + last--;
    }

    static int items(int[] a, long[] b, byte[] c, int i) {
        int x = a[i]++ + (a[i] += 2);
        long y = b[i]++ + (b[i] = x);
        c[i] += y;
        return x + (int) (b[0] = y) + (c[1] = 7);
    }

    Places chain(Places other) {
        next = other.next = this;
        longs(3L);
        post();
        chain(null).next = null;
        return next = null;
    }
}

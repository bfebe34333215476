/** Loops in one another, with labels. */
class Loops {
    static long sum(int[] values) {
        long sum = 0;
        for (int value : values) {
            sum += value;
        }
        return sum;
    }

    static int primes(int limit) {
        int found = 0;
        outer:
        for (int n = 2; n < limit; n++) {
            for (int by = 2; by * by <= n; by++) {
                if (n % by == 0) {
                    continue outer;
                }
            }
            found++;
        }
        return found;
    }

    static int steps(long n) {
        int steps = 0;
        do {
            n = (n & 1L) == 0 ? n >> 1 : 3 * n + 1;
            steps++;
        } while (n != 1L);
        return steps;
    }

    static Shape last(Shape[] shapes) {
        Shape last = null;
        int k = 0;
        while (k < shapes.length) {
            Shape next = shapes[k++];
            if (next == null) {
                break;
            }
            last = next;
        }
        return last;
    }

    static Circle made(int count) {
        Circle made = null;
        while (count-- > 0) {
            made = new Circle(made == null ? count : made.area());
        }
        return made;
    }
}

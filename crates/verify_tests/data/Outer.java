/** Inner classes: nested, inner, local and anonymous. */
class Outer {
    private int count;
    private long total;

    private static final class Pair {
        private final int left;
        private final Pair next;

        Pair(int left, Pair next) {
            this.left = left;
            this.next = next;
        }
    }

    class Inner {
        private int own = count;

        int both() {
            total += own;
            return own + (count > own ? count++ : --count);
        }
    }

    Shape shape(final int area) {
        return new Shape() {
            private int asked;

            public int area() {
                asked++;
                return area > asked ? area - asked : count;
            }
        };
    }

    int inner(int n) {
        Inner inner = n > 0 ? new Inner() : this.new Inner();
        return inner.own + inner.both();
    }

    static int length(int n) {
        Pair pair = null;
        for (int k = 0; k < n; k++) {
            pair = new Pair(k, pair);
        }
        int length = 0;
        for (Pair at = pair; at != null; at = at.next) {
            length += at.left;
        }
        return length;
    }
}

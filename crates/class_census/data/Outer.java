/** Inner classes of each kind. */
class Outer {
    private int count;

    class Step {
        final int by;

        Step(int by) {
            this.by = by;
        }

        void take() {
            count += by;
        }
    }

    static class Pair {
        private final int first;
        private int second;

        private Pair(int first) {
            this.first = first;
        }
    }

    interface Visitor {
        void visit(int value);
    }

    int all(final int most) {
        final Step step = new Step(2);
        Visitor visitor = new Visitor() {
            public void visit(int value) {
                if (value < most) {
                    step.take();
                }
            }
        };
        Pair pair = new Pair(1);
        pair.second = pair.first + count;
        visitor.visit(pair.second);
        return count;
    }
}

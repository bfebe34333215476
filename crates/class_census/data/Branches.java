/** Constructors with branches, and conditional expressions in one another. */
class Branches {
    final int kind;
    private final Branches parent;

    Branches(int x, Branches parent) {
        if (x < 0) {
            kind = parent == null ? -1 : parent.kind;
        } else if (x == 0) {
            kind = 0;
        } else {
            kind = x > 10 ? x > 100 ? 3 : 2 : 1;
        }
        this.parent = parent;
    }

    Branches(boolean deep) {
        this(deep ? 11 : 1, deep ? new Branches(false) : null);
    }

    static int sign(int x) {
        return x > 0 ? 1 : x < 0 ? -1 : 0;
    }

    static int pick(int a, int b, int c, boolean first) {
        return first ? a > b ? a : b : (a <= c ? b : c) + (b >= c ? first ? 1 : 2 : 3);
    }

    boolean same(Branches other) {
        return this == other || other != null && kind == other.kind && !(parent != other.parent);
    }
}

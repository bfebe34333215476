/** Conditional expressions whose values have different types. */
class Choices {
    static Shape shape(int kind) {
        return kind == 0 ? new Square(1) : kind == 1 ? new Circle(2) : null;
    }

    static Base base(boolean round, Square square, Circle circle) {
        return round ? circle : square;
    }

    static Object any(int kind, int[] numbers, Shape shape) {
        return kind > 3 ? numbers : kind > 2 ? shape : kind > 1 ? new Object() : null;
    }

    static int area(Shape given, Base other) {
        return (given != null ? given : other).area() + (other == given ? 1 : 0);
    }

    static boolean same(Object a, Object b) {
        return a == b || a instanceof Square && b instanceof Square && ((Square) a).area() == ((Square) b).area();
    }

    static long wide(boolean first, long a, int b) {
        return first ? a : b;
    }

    static int nested(boolean a, boolean b, int x) {
        return shape(a ? b ? 1 : 2 : 0) == null ? x : new Square(a ? x : b ? 1 : 0).area();
    }
}

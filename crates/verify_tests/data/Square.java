/** Constructors with branches before they call super or another. */
final class Square extends Base {
    private static int made;

    Square(int size) {
        super(size > 7 ? 7 : size, size == 3 ? null : new Circle(size));
        made++;
    }

    Square(Square other, boolean deep) {
        this(deep && other != null ? other.size + (deep ? 1 : 2) : 1);
        if (other == null) {
            return;
        }
        this.other = other;
    }

    public int area() {
        return size * size;
    }

    Square twice() {
        return new Square(size + size);
    }
}

/** A class with fields that are written before super is called. */
final class Circle extends Base {
    private long weight;

    Circle(int size) {
        super(size, null);
        weight = size > 0 ? 3L * size : -1L;
    }

    public int area() {
        return (int) (weight * size);
    }

    Base twice() {
        Base next = size < 10 ? new Square(size) : new Circle(size + size);
        return next.area() > 0 ? next : this;
    }
}

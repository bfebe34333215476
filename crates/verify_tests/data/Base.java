/** An abstract class, whose constructor branches. */
abstract class Base implements Shape {
    protected final int size;
    protected Shape other;

    Base(int size, Shape other) {
        if (size < 0) {
            this.size = other == null ? 0 : other.area();
        } else {
            this.size = size > 100 ? 100 : size;
        }
        this.other = other;
    }

    abstract Base twice();
}

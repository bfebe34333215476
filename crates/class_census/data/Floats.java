/** Floating point, which is outside. */
class Floats {
    static int half(double x) {
        return (int) (x / 2);
    }
}

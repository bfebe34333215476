/** A constant of each kind. */
class Constants {
    static final boolean FLAG = true;
    static final byte BYTE = -128;
    static final short SHORT = 32767;
    static final char CHAR = '\u20ac';
    static final int INT = 0x7fffffff;
    static final long LONG = 0x8000_0000_0000_0000L;
    static final float FLOAT = 1.5f;
    static final double DOUBLE = -0.25;
    static final String TEXT = "a text";
    final int own = 17;
    static int later = 70000;

    static int ints(int n) {
        return n + 5 + 100 + 1000 + 40000 + 123456789 + (-1) + INT;
    }

    static long longs(long n) {
        return n + 0L + 1L + 2L + 65536L + LONG;
    }
}

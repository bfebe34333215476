/** Fields that are narrower than an int. */
class Fields {
    boolean on;
    byte small;
    short middle;
    char letter;
    static boolean seen;
    static byte low;
    static short port;
    static char last;
    long wide;
    Fields next;
    volatile int shared;
    transient int hidden;

    void set(int value) {
        on = value != 0;
        small = (byte) value;
        middle = (short) (value + small);
        letter = (char) middle;
        seen |= on;
        low += small;
        port = middle;
        last++;
        wide = value;
        shared = hidden = value >>> 1;
        next = on ? this : null;
    }

    int sum() {
        return (on ? 1 : 0) + small + middle + letter + (seen ? 1 : 0) + low + port + last + (int) wide;
    }
}

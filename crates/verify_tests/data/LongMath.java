/** Longs among ints. */
class LongMath {
    static long power(long base, int exponent) {
        long result = 1L;
        while (exponent > 0) {
            if ((exponent & 1) != 0) {
                result *= base;
            }
            base *= base;
            exponent >>>= 1;
        }
        return result;
    }

    static long mixed(int a, long b, short c, long d, byte e) {
        long x = a + b * c - d / (e | 1);
        int shift = (int) (x ^ b) & 63;
        return x << shift | x >>> 64 - shift ^ ~b % (d == 0 ? 1 : d);
    }

    static int sign(long x) {
        return x > 0 ? 1 : x < 0 ? -1 : 0;
    }

    static boolean between(long low, long x, long high) {
        return low <= x && x < high;
    }

    static char letter(long x) {
        return (char) ('a' + (byte) x % 26 + (short) (x >> 3));
    }

    static long most(long a, long b) {
        long most;
        if (a > b) {
            int smaller = (int) b;
            most = a - smaller;
        } else {
            long other = a;
            most = b - other;
        }
        return -most;
    }
}

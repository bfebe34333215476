/** Arithmetic on long, and between long and int. */
class LongMath {
    static final long SCALE = 1_000_000_007L;

    static long mixed(long a, int b) {
        return (a + b) * SCALE - a / (b | 1) % 17L;
    }

    static long shifted(long a, int by) {
        return (a << by) ^ (a >> by) ^ (a >>> (by + 1)) & ~a | -a;
    }

    static boolean within(long a, long low, long high) {
        return a >= low && a < high || a == -1L;
    }

    static int folded(long a) {
        return (int) (a ^ a >>> 32);
    }

    static long power(long base, int exponent) {
        long result = 1;
        while (exponent > 0) {
            if ((exponent & 1) != 0) {
                result *= base;
            }
            base *= base;
            exponent >>= 1;
        }
        return result;
    }

    static long counted(long[] counts) {
        long sum = 0L;
        for (int i = 0; i < counts.length; i++) {
            sum += counts[i]++;
        }
        return sum;
    }
}

/** Arrays of each kind, and arrays of arrays. */
class Rows {
    private final int[][] rows = new int[3][];
    private Object[] objects = {null, this, new Rows[2]};
    static final byte[] TABLE = {1, 2, 4, 8, 16, 32, 64, -128};

    Rows() {
        for (int i = 0; i < rows.length; i++) {
            rows[i] = new int[i + 1];
            rows[i][i] = i;
        }
    }

    static int sums(boolean[] flags, char[] letters, short[] shorts, byte[] bytes) {
        int sum = flags[0] ? 1 : 0;
        sum += letters[1] + shorts[2] + bytes[3];
        flags[0] = !flags[0];
        letters[1] += 1;
        shorts[2]--;
        bytes[3] = (byte) sum;
        return sum;
    }

    int[] last() {
        return rows[rows.length - 1];
    }

    long[][] squares(int n) {
        long[][] result = new long[n][];
        for (int i = 0; i < n; ++i) {
            result[i] = new long[] {i, (long) i * i};
        }
        return result;
    }

    Object[] copied() {
        Object[] result = new Object[objects.length];
        for (Object o : objects) {
            if (o != null) {
                result[result.length - 1] = o;
            }
        }
        return result;
    }
}

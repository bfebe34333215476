/** Arrays of arrays, and arrays where objects are wanted. */
class Grid {
    private final int[][] cells;
    private boolean[] marks;

    Grid(int rows, int columns) {
        cells = new int[rows][];
        for (int k = 0; k < rows; k++) {
            cells[k] = new int[columns];
        }
        marks = rows > columns ? new boolean[rows] : null;
    }

    int at(int row, int column) {
        return marks == null || !marks[row] ? cells[row][column] : -1;
    }

    static Object[] mixed(Square square, long[] longs) {
        Object[] all = {square, longs, new Shape[] {square, null}, new int[2][], null};
        all[4] = all;
        return all;
    }

    static int sum(byte[] bytes, char[] letters, short[] shorts, long[][] longs) {
        int sum = bytes[0] + letters[1] + shorts[2] + bytes.length;
        sum += (int) longs[0][1] + longs.length + longs[0].length;
        longs[1] = longs[0];
        bytes[1] = (byte) sum;
        letters[0] = (char) sum;
        shorts[0] = (short) sum;
        longs[0][0] = sum;
        return sum;
    }

    static Object copied(int[] values, boolean deep) {
        return deep ? new int[][] {values} : values;
    }

    static Shape[] shapes(boolean round, int n) {
        Shape[] shapes = round ? new Circle[n] : new Square[n];
        shapes[0] = round ? new Circle(1) : new Square(2);
        return shapes;
    }

    static Shape[][] deep(Base[][] bases, Shape[][] shapes, boolean first) {
        return first ? bases : shapes;
    }
}

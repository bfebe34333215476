/** An array of arrays that one instruction makes, which is outside. */
class Matrix {
    int[][] cells(int rows, int columns) {
        return new int[rows][columns];
    }
}

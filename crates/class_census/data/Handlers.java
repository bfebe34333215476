/** Handlers of exceptions. */
class Handlers {
    int count;

    int guarded(int[] values, int at) {
        try {
            return values[at] / count;
        } catch (ArithmeticException e) {
            return 0;
        } catch (IndexOutOfBoundsException | NullPointerException e) {
            count++;
        } finally {
            count += 2;
        }
        return -1;
    }

    static void check(boolean holds) throws Exception {
        if (!holds) {
            throw new Exception();
        }
    }

    static int tried(int depth) {
        for (int i = 0; i < depth; i++) {
            try {
                check(i < 3);
            } catch (Exception e) {
                return i;
            }
        }
        return depth;
    }
}

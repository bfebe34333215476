/** Both forms of a switch. */
class Switches {
    static int dense(int x) {
        int found = 0;
        switch (x) {
            case 1:
                found = 10;
            case 2:
                found += 20;
                break;
            case 3: {
                long wide = x;
                found = (int) (wide * 3);
                break;
            }
            case 5:
                return -1;
            default:
                found = x;
        }
        return found;
    }

    static Object sparse(int x, Square square) {
        switch (x) {
            case -1000:
                return square;
            case 0:
                return new Circle(x);
            case 70000:
                return new int[] {x};
        }
        return null;
    }

    static int loop(int[] program) {
        int sum = 0;
        for (int k = 0; k < program.length; k++) {
            switch (program[k]) {
                case 0:
                    continue;
                case 1:
                    sum++;
                    break;
                case 2:
                    if (sum > 3) {
                        return sum;
                    }
                    sum = -sum;
            }
        }
        return sum;
    }
}

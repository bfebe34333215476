/** Loops of each kind. */
class Loops {
    static int labelled(int[] values, int most) {
        int found = 0;
        outer:
        for (int i = 0; i < values.length; i++) {
            for (int j = i + 1; j < values.length; j += 2) {
                if (values[j] == 0) {
                    continue outer;
                }
                if (found >= most) {
                    break outer;
                }
                found += values[i] - values[j];
            }
        }
        return found;
    }

    static int steps(int from) {
        int steps = 0;
        do {
            from += 1000;
            steps--;
            from -= 3;
        } while (from < 100000 && steps > -500);
        return steps;
    }

    static int gcd(int a, int b) {
        while (b != 0) {
            int rest = a % b;
            a = b;
            b = rest;
        }
        return a;
    }

    static void forever() {
        for (;;) {
        }
    }
}

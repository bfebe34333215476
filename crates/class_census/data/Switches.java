/** Both forms of switch. */
class Switches {
    static int dense(int x) {
        switch (x) {
            case 3: return 30;
            case 4: return 40;
            case 5:
            case 6: return 60;
            case 8: return 80;
            default: return -1;
        }
    }

    static int sparse(int x) {
        switch (x) {
            case Integer.MIN_VALUE: return 1;
            case -7: return 2;
            case 100000: return 3;
            case Integer.MAX_VALUE: return 4;
        }
        return 0;
    }

    static int falling(char c) {
        int sum = 0;
        switch (c) {
            case 'a': sum += 1;
            case 'b': sum += 2; break;
            case 'z': sum -= 1;
            default: sum += 4;
        }
        return sum;
    }

    static int nested(byte kind, short value) {
        switch (kind) {
            case 0:
                switch (value) {
                    case 1: return 11;
                    case 1000: return 12;
                    default: return 13;
                }
            case 1: return value;
            default: break;
        }
        return -1;
    }

    static void onlyDefault(int x) {
        switch (x) {
            default: x++;
        }
    }
}

/** Something that is thrown. */
class Failure extends RuntimeException {
    final int code;

    Failure(int code) {
        this.code = code < 0 ? -code : code;
    }

    static int checked(int x, Failure failure) {
        if (x > 9) {
            throw new Failure(x);
        }
        if (failure != null) {
            throw failure;
        }
        return x;
    }

    static int never(Exception given) throws Exception {
        throw given == null ? new Failure(1) : given;
    }
}

/** Methods whose code is exchanged for others: each has an operand stack of 6 places. */
class Codes {
    Codes next;
    int number;
    long wide;
    static Codes last;
    static int count;

    Codes() {
        Codes a = this;
        int b = 1;
        long c = 2;
        int d = 3, e = b;
        filled(1, 2L, 3L, 4);
    }

    static void filled(int a, long b, long c, int d) {
        filled(a, b, c, d);
        taken(new Codes());
    }

    static int taken(Codes given) {
        int b = 1;
        long c = 2;
        int d = 3, e = b;
        filled(1, 2L, 3L, 4);
        last = given;
        given.next = last;
        given.number = count;
        given.wide = given.wide + 1;
        Object array = new int[1];
        int[] numbers = (int[]) array;
        Object[] all = new Codes[2];
        Shape shape = new Circle(3);
        return shape.area() + numbers[0] + (all[0] instanceof Shape ? 1 : 2);
    }

    private void own() {
        Codes a = this;
        int b = 1;
        long c = 2;
        int d = 3, e = b;
        filled(1, 2L, 3L, 4);
        a.own();
        throw new Failure(2);
    }
}

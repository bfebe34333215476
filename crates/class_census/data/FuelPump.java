/** A class behind an abstract one, with casts and tests of classes. */
final class FuelPump extends Pump {
    private static int stops;

    FuelPump() {
        super(100);
    }

    int flow(int pressure) {
        return speed + pressure / 2;
    }

    protected void stopped() {
        stops++;
        super.speed = 0;
    }

    public int read() {
        return speed > LIMIT ? LIMIT : speed;
    }

    static int readOf(Object o) {
        if (o instanceof FuelPump) {
            return ((FuelPump) o).read();
        }
        return o instanceof Sensor ? ((Sensor) o).twice() : -1;
    }
}

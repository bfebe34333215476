/** An abstract class that is a sensor. */
abstract class Pump implements Sensor {
    protected int speed;
    private boolean running;

    Pump(int speed) {
        this.speed = speed;
    }

    abstract int flow(int pressure);

    protected abstract void stopped();

    public boolean isReady(int channel) {
        return running && channel == 0;
    }

    final void step(Sensor pressure) {
        int value = pressure.read();
        running = value > 0;
        if (running) {
            speed = flow(value);
        } else {
            stopped();
        }
    }
}

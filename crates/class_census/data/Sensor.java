/** An interface with a constant, a default method and a static one. */
interface Sensor {
    int LIMIT = 4000;

    int read();

    boolean isReady(int channel);

    default int twice() {
        return 2 * read();
    }

    static int clamp(int value) {
        return value > LIMIT ? LIMIT : value;
    }
}

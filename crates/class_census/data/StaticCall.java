/** A call of a static method of an interface, which is outside. */
class StaticCall {
    static int clamped(int value) {
        return Sensor.clamp(value);
    }
}

/** Text constants, which are outside. */
class Texts {
    static String name(boolean low) {
        return low ? "low" : "high";
    }
}

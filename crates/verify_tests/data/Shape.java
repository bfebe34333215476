/** An interface with a constant and a method. */
interface Shape {
    int EDGES = 4;

    int area();
}

/** A program that does nothing, for what it takes to start. */
public class Nothing {
    public static void init() {
    }
}

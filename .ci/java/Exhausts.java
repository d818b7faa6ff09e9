/** Each worker makes objects until there is no room for one, and then throws. */
public class Exhausts {
    public static void run(int number) {
        while (true) {
            new Object();
        }
    }
}

/** Two workers, each of which has one monitor and wants that of the other. */
public class Deadlock {
    private static final Object first = new Object();
    private static final Object second = new Object();
    private static boolean firstIsHeld;
    private static boolean secondIsHeld;

    public static void run(int number) {
        if (number == 1) {
            synchronized (first) {
                firstIsHeld = true;
                while (!secondIsHeld) {
                }
                synchronized (second) {
                    System.out.println(number);
                }
            }
        } else {
            synchronized (second) {
                secondIsHeld = true;
                while (!firstIsHeld) {
                }
                synchronized (first) {
                    System.out.println(number);
                }
            }
        }
    }
}

/**
 * A worker looks at a number until it is set by another, which an exception ends before it does so:
 * no run ever comes to an end.
 */
public class Spin {
    private static int set;
    private static int zero;

    public static void run(int number) {
        if (number == 1) {
            System.out.println(7);
            set = 1 / zero;
        } else {
            while (set == 0) {
            }
        }
    }
}

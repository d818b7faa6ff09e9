/** A number is handed over by a flag: who sees the flag sees the number. */
public class Passed {
    private static int number;
    private static volatile boolean isThere;

    public static void run(int worker) {
        if (worker == 1) {
            number = 7;
            isThere = true;
        } else if (isThere) {
            System.out.println(number);
        }
    }
}

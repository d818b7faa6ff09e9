/** Each of two threads writes its own number and reads that of the other: not both read 0. */
public class Crossed {
    private static volatile int first;
    private static volatile int second;
    private static int seenByFirst;
    private static int seenBySecond;

    public static void run(int number) {
        if (number == 1) {
            first = 1;
            seenByFirst = second;
        } else {
            second = 1;
            seenBySecond = first;
        }
    }

    public static void done() {
        System.out.println(seenByFirst * 10 + seenBySecond);
    }
}

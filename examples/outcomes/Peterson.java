/** Peterson's lock for two threads, of volatile fields, with a count that it guards. */
public class Peterson {
    private static volatile boolean first;
    private static volatile boolean second;
    private static volatile int turn;
    private static int count;

    private static void addAsFirst() {
        first = true;
        turn = 2;
        while (second && turn == 2) {
        }
        count = count + 1;
        first = false;
    }

    private static void addAsSecond() {
        second = true;
        turn = 1;
        while (first && turn == 1) {
        }
        count = count + 1;
        second = false;
    }

    public static void run(int number) {
        if (number == 1) {
            addAsFirst();
        } else {
            addAsSecond();
        }
    }

    public static void done() {
        System.out.println(count);
    }
}

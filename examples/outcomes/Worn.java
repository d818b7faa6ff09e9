/** A count down that is looked at under the lock and then changed under the lock again. */
public class Worn {
    private static final Worn worn = new Worn();

    private int left = 1;

    synchronized boolean isLeft() {
        return left > 0;
    }

    synchronized void take() {
        left = left - 1;
        if (left < 0) {
            throw new RuntimeException();
        }
    }

    public static void run(int number) {
        if (worn.isLeft()) {
            worn.take();
        }
    }

    public static void done() {
        System.out.println(worn.left);
    }
}

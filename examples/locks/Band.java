/** Two static fields that belong together: a band moves, and its width stays the same. */
public class Band {
    private static int low;
    private static int high = 10;

    static synchronized void move(int by) {
        low += by;
        high += by;
    }

    static synchronized int width() {
        return high - low;
    }

    /** The first worker reads, and the others move the band. */
    public static void run(int number) {
        if (number == 1) {
            System.out.println(width());
        } else {
            move(100);
        }
    }
}

/** A share of two numbers that always differ while nobody holds the lock; between, they are the same. */
public class Share {
    private static Share share;

    private int part = 1;
    private int whole = 2;

    synchronized void grow() {
        part += 1;
        whole += 1;
    }

    int share() {
        synchronized (this) {
            return 100 / (whole - part);
        }
    }

    public static void init() {
        share = new Share();
    }

    /** The first worker reads, the second changes both numbers. */
    public static void run(int number) {
        if (number == 1) {
            System.out.println(share.share());
        } else {
            share.grow();
        }
    }
}

/** Sums that several workers add to and read, under synchronized methods and blocks, entered again and left by exceptions. */
public class Counters {
    private static final Counters low = new Counters();
    private static final Counters high = new Counters();

    private int total;
    private int twice;
    private int changes;

    private synchronized void add(int n) {
        total += n;
        twice += 2 * n;
        changes++;
    }

    /** Whether both sums are of the same changes, as they are whenever nobody holds the lock. */
    private synchronized boolean fits() {
        return twice == 2 * total;
    }

    private int both() {
        synchronized (this) {
            return total() * 100 + changes;
        }
    }

    private synchronized int total() {
        return total;
    }

    /** Takes two locks, always the low one first. */
    private static void move(int n) {
        synchronized (low) {
            synchronized (high) {
                low.add(-n);
                high.add(n);
            }
        }
    }

    /** Leaves its lock by an exception. */
    private synchronized void refuseEven(int n) {
        if (n % 2 == 0) {
            throw new RuntimeException();
        }
        add(n);
    }

    public static void init() {
        System.out.println(low.both());
        low.add(1);
        high.add(1);
    }

    public static void run(int number) {
        for (int i = 0; i < 10; i++) {
            low.add(number);
            if (!low.fits() || !high.fits()) {
                System.out.println(-1);
            }
            move(number + i);
            try {
                high.refuseEven(i);
            } catch (RuntimeException e) {
                low.add(0);
            }
        }
    }

    public static void done() {
        System.out.println(low.both());
        System.out.println(high.both());
        System.out.println(low.total() + high.total());
    }
}

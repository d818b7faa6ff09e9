/** Each wait is on an object of its own, whose lock is made fat for it: the 1,025th finds no monitor record left. */
public class Records {
    private static Object last;

    static void waits(int count) throws InterruptedException {
        for (int waited = 0; waited < count; waited++) {
            Object own = new Object();
            synchronized (own) {
                last = own;
                own.wait();
            }
        }
    }

    /** Wakes 1,024 waits. */
    static void wakes() {
        Object seen = null;
        for (int woken = 0; woken < 1024; woken++) {
            while (last == seen) {
            }
            seen = last;
            synchronized (seen) {
                seen.notify();
            }
        }
    }

    public static void run(int number) throws InterruptedException {
        if (number == 1) {
            waits(1025);
        } else {
            wakes();
        }
    }
}

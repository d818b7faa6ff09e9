/** The 1,024 waits of {@link Records} take all monitor records, and `done` finds none left. */
public class LastRecord {
    public static void run(int number) throws InterruptedException {
        if (number == 1) {
            Records.waits(1024);
        } else {
            Records.wakes();
        }
    }

    public static void done() throws InterruptedException {
        Object own = new Object();
        synchronized (own) {
            own.wait();
        }
    }
}

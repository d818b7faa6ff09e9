/**
 * A slot for one number, by one who puts and those who take. `notify` wakes one of those that wait,
 * and may wake one who takes where it is the one who puts that could go on.
 */
public class Slot {
    private static final Slot slot = new Slot();

    private boolean full;

    synchronized void put() throws InterruptedException {
        while (full) {
            wait();
        }
        full = true;
        notify();
    }

    synchronized void take() throws InterruptedException {
        while (!full) {
            wait();
        }
        full = false;
        notify();
    }

    /** The first worker puts twice, the others take. */
    public static void run(int number) throws InterruptedException {
        if (number == 1) {
            slot.put();
            slot.put();
        } else {
            slot.take();
        }
    }
}

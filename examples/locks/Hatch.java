/**
 * A hatch through which one thing at a time goes, from a worker that puts to two that take. All three wait on its
 * monitor, and each wakes one thread with `notify`. That may be one that has nothing to do, and then nobody wakes the
 * one that has.
 */
public class Hatch {
    static final int EACH = 40;

    private static final Hatch hatch = new Hatch();

    private boolean full;

    synchronized void put() throws InterruptedException {
        while (full) {
            wait();
        }
        full = true;
        notify();
    }

    synchronized void take() throws InterruptedException {
        while (!full) {
            wait();
        }
        full = false;
        notify();
    }

    /** Puts as many as both who take will take. */
    static void puts() throws InterruptedException {
        for (int i = 0; i < 2 * EACH; i++) {
            hatch.put();
        }
    }

    static void takes() throws InterruptedException {
        for (int i = 0; i < EACH; i++) {
            hatch.take();
        }
    }

    /** The first worker puts, the second and the third take. */
    public static void run(int number) throws InterruptedException {
        if (number == 1) {
            puts();
        } else {
            takes();
        }
    }
}

/** The same with other numbers: the first and the second worker take, the third puts. */
class HatchTurned {
    public static void run(int number) throws InterruptedException {
        if (number == 3) {
            Hatch.puts();
        } else {
            Hatch.takes();
        }
    }
}

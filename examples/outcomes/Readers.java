/** A lock for several readers or one writer, over an ordinary one. */
public class Readers {
    private static final Readers lock = new Readers();
    private static int low = 1;
    private static int high = 1;

    private int reading;
    private boolean isWriting;

    synchronized void beginRead() throws InterruptedException {
        while (isWriting) {
            wait();
        }
        reading = reading + 1;
    }

    synchronized void endRead() {
        reading = reading - 1;
        notifyAll();
    }

    synchronized void beginWrite() throws InterruptedException {
        while (isWriting || reading > 0) {
            wait();
        }
        isWriting = true;
    }

    synchronized void endWrite() {
        isWriting = false;
        notifyAll();
    }

    /** The first worker writes two numbers, each other one prints their difference. */
    public static void run(int number) throws InterruptedException {
        if (number == 1) {
            lock.beginWrite();
            low = 5;
            high = 5;
            lock.endWrite();
        } else {
            lock.beginRead();
            int gap = high - low;
            lock.endRead();
            System.out.println(gap);
        }
    }
}

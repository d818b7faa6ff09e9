/** A letter that is announced once, when it comes. Who then begins to wait for the announcement waits for ever. */
public class Letter {
    private static final Letter letter = new Letter();

    private boolean here;

    synchronized void bring() {
        here = true;
        notifyAll();
    }

    /** Waits without a look at whether the letter is here. */
    synchronized void waitBlindly() throws InterruptedException {
        wait();
    }

    synchronized void waitUntilHere() throws InterruptedException {
        while (!here) {
            wait();
        }
    }

    /** The first worker waits blindly, the second brings the letter, the third looks first. */
    public static void run(int number) throws InterruptedException {
        switch (number) {
            case 1: letter.waitBlindly(); break;
            case 2: letter.bring(); break;
            default: letter.waitUntilHere();
        }
    }
}

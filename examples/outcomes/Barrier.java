/** A barrier that opens for two: nobody is behind it before both have come. */
public class Barrier {
    private static final Barrier barrier = new Barrier();
    private static int first;
    private static int second;

    private int come;

    synchronized void pass() throws InterruptedException {
        come = come + 1;
        notifyAll();
        while (come < 2) {
            wait();
        }
    }

    /** Each worker writes its own number, and prints that of the other behind the barrier. */
    public static void run(int number) throws InterruptedException {
        if (number == 1) {
            first = 1;
            barrier.pass();
            System.out.println(second);
        } else {
            second = 2;
            barrier.pass();
            System.out.println(first);
        }
    }
}

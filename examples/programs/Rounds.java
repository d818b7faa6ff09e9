/** Workers that print by turns, the last one first: each waits for the one above, and wakes all when it has printed. */
public class Rounds {
    private static final int WORKERS = 4;
    private static final int ROUNDS = 3;
    private static final Rounds table = new Rounds();

    private int turn = WORKERS;

    private void play(int number) throws InterruptedException {
        synchronized (this) {
            while (turn != number) {
                wait();
            }
            System.out.println(number);
            turn = turn == 1 ? WORKERS : turn - 1;
            notifyAll();
        }
    }

    public static void run(int number) throws InterruptedException {
        for (int i = 0; i < ROUNDS; i++) {
            table.play(number);
        }
    }

    public static void done() {
        System.out.println(table.turn);
        table.notify();
    }
}

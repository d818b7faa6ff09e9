/**
 * Two numbers that are always equal. Each worker of an even number sets both, eight times, and each other one reads both,
 * eight times, in a section that may run without its lock: so sections often fail on real threads.
 */
public class Pair {
    private static final Pair pair = new Pair();

    private int first;
    private int second;
    private int unequal;

    synchronized void set(int value) {
        first = value;
        second = value;
    }

    synchronized boolean isEqual() {
        return first == second;
    }

    synchronized void count() {
        unequal++;
    }

    public static void run(int number) {
        for (int round = 1; round <= 8; round++) {
            if (number % 2 == 0) {
                pair.set(round);
            } else if (!pair.isEqual()) {
                pair.count();
            }
        }
    }

    /** How often the two were found unequal: never. */
    public static void done() {
        synchronized (pair) {
            System.out.println(pair.unequal);
        }
    }
}

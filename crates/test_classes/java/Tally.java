/** A count under a lock, for reading and writing back. */
public class Tally {
    private int total;
    static Tally last;
    static final int STEP = 3;

    Tally(int start) {
        total = start;
    }

    synchronized void add(int n) {
        total += n * STEP;
    }

    int get() {
        synchronized (this) {
            return total;
        }
    }

    static int kind(int n) {
        try {
            switch (n) {
                case 1: return 10 / n;
                case 2: return 20;
                case 100: return 30;
                default: return -1;
            }
        } finally {
            last = new Tally(n);
        }
    }
}

/** Workers that end by an exception that nobody catches, each by another; one returns. */
public class Faults {
    private static final Object lock = new Object();
    private static int finished;

    private static void finish() {
        synchronized (lock) {
            finished++;
        }
    }

    public static void run(int number) throws Exception {
        int[] array = new int[3];
        Faults none = null;
        try {
            switch (number) {
                case 1: array[0] = number / array[1]; break;
                case 2: array[array.length] = 1; break;
                case 3: none.fail(0); break;
                case 4: lock.notify(); break;
                case 5: new Faults().fail(5); break;
                case 6: array = new int[-1]; break;
                case 7: throw new Exception();
                default: array[1] = array[2];
            }
        } finally {
            finish();
        }
    }

    private synchronized void fail(int depth) {
        if (depth == 0) {
            synchronized (lock) {
                throw new Error();
            }
        }
        fail(depth - 1);
    }

    public static void done() {
        System.out.println(finished);
    }
}

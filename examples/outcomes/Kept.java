/** A count that each worker adds one to under a lock: no addition is lost. */
public class Kept {
    private static final Kept kept = new Kept();

    private int count;

    synchronized void add() {
        count = count + 1;
    }

    public static void run(int number) {
        kept.add();
        kept.add();
    }

    public static void done() {
        System.out.println(kept.count);
    }
}

/** A sum that every worker adds its number to. */
public class Total {
    private static final Total total = new Total();

    private int sum;

    synchronized void add(int n) {
        sum += n;
    }

    int sum() {
        synchronized (this) {
            return sum;
        }
    }

    public static void run(int number) {
        total.add(number);
    }

    public static void done() {
        System.out.println(total.sum());
    }
}

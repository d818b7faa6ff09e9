/** Synchronized sections that only read, which run without their lock. */
public class Reads {
    static final int SIZE = 2500000;

    private int low;
    private int high = 10;

    private int length() {
        synchronized (this) {
            return high - low;
        }
    }

    public static void init() {
        Reads reads = new Reads();
        int sum = 0;
        for (int i = 0; i < SIZE; i++) {
            sum += reads.length();
        }
        System.out.println(sum);
    }
}

/** Workers that read one object, each in sections that run without their lock. */
public class Readers {
    static final int SIZE = 1000000;

    private static final Readers shared = new Readers();

    private int low;
    private int high = 10;

    private synchronized int length() {
        return high - low;
    }

    public static void run(int number) {
        Readers readers = shared;
        int sum = 0;
        for (int i = 0; i < SIZE; i++) {
            sum += readers.length();
        }
        System.out.println(sum);
    }
}

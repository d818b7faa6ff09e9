/** Workers that read one object without its lock, and move it under the lock once in a hundred times. */
public class Mixed {
    static final int SIZE = 1000000;

    private static final Mixed shared = new Mixed();

    private int low;
    private int high = 10;

    private synchronized int length() {
        return high - low;
    }

    private synchronized void move() {
        low++;
        high++;
    }

    public static void run(int number) {
        Mixed mixed = shared;
        int sum = 0;
        for (int i = 0; i < SIZE; i++) {
            if (i % 100 == 99) {
                mixed.move();
            } else {
                sum += mixed.length();
            }
        }
        System.out.println(sum);
    }
}

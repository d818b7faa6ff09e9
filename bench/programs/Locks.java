/** Synchronized methods that write, on a lock that nobody else wants. */
public class Locks {
    static final int SIZE = 2500000;

    private int total;

    private synchronized void add(int n) {
        total += n;
    }

    public static void init() {
        Locks locks = new Locks();
        for (int i = 0; i < SIZE; i++) {
            locks.add(i);
        }
        System.out.println(locks.total);
    }
}

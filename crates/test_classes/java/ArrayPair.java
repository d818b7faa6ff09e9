/** Two elements that worker 1 adds up and the other workers set, both in synchronized methods. */
class ArrayPair {
    private static final ArrayPair pair = new ArrayPair();

    private final int[] both = new int[2];

    synchronized void set(int n) {
        both[0] = n;
        both[1] = n;
    }

    synchronized int sum() {
        return both[0] + both[1];
    }

    public static void run(int thread) {
        if (thread == 1) {
            System.out.println(pair.sum());
        } else {
            pair.set(4);
        }
    }
}

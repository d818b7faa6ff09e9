/** Two static fields that worker 1 adds up and the other workers set, both in static synchronized methods. */
class ClassPair {
    private static int a;
    private static int b;

    static synchronized void set(int n) {
        a = n;
        b = n;
    }

    static synchronized int sum() {
        return a + b;
    }

    public static void run(int thread) {
        if (thread == 1) {
            System.out.println(sum());
        } else {
            set(4);
        }
    }
}

/** Static synchronized methods: one is left by an exception, one enters its monitor again, and workers meet in one. */
class ClassLocks {
    private static int count;

    static synchronized int half(int n) {
        return 4 / n;
    }

    static synchronized int twice(int n) {
        return half(n) + half(n);
    }

    static synchronized void add(int n) {
        count += n;
    }

    public static void init() {
        try {
            System.out.println(twice(0));
        } catch (ArithmeticException e) {
            System.out.println(twice(2));
        }
    }

    public static void run(int thread) {
        add(thread);
    }

    public static void done() {
        System.out.println(count);
    }
}

/** Calls of a method by itself. */
public class Calls {
    static final int SIZE = 2500;

    private static int fibonacci(int n) {
        return n < 2 ? n : fibonacci(n - 1) + fibonacci(n - 2);
    }

    public static void init() {
        int sum = 0;
        for (int i = 0; i < SIZE; i++) {
            sum += fibonacci(15);
        }
        System.out.println(sum);
    }
}

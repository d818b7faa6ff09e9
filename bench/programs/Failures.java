/** Exceptions that are thrown in a method and caught where it was called, and others that pass a finally block. */
public class Failures {
    static final int SIZE = 600000;

    private static final RuntimeException even = new RuntimeException();
    private static final Error other = new Error();

    private static int half(int n) {
        if ((n & 1) != 0) {
            throw even;
        }
        return n / 2;
    }

    private static int quarter(int n) {
        int tried = 0;
        try {
            tried++;
            return half(half(n)) + tried;
        } finally {
            if ((n & 2) != 0) {
                throw other;
            }
        }
    }

    public static void init() {
        int sum = 0;
        for (int i = 0; i < SIZE; i++) {
            try {
                sum += quarter(i);
            } catch (RuntimeException e) {
                sum++;
            } catch (Error e) {
                sum += 2;
            }
        }
        System.out.println(sum);
    }
}

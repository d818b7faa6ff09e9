/** Two numbers that belong together: a span moves, and its length stays the same. */
public class Span {
    private static Span span;

    private int low;
    private int high = 10;

    synchronized void move(int by) {
        low += by;
        high += by;
    }

    int length() {
        synchronized (this) {
            return high - low;
        }
    }

    /** The same without the lock. */
    int glance() {
        return high - low;
    }

    public static void init() {
        span = new Span();
    }

    /** The first worker reads, the second and the third move the span, and the fourth reads without the lock. */
    public static void run(int number) {
        switch (number) {
            case 1: System.out.println(span.length()); break;
            case 4: System.out.println(span.glance()); break;
            default: span.move(100);
        }
    }
}

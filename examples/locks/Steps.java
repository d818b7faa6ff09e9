/** A way from one number up to another, which is never below it while nobody holds the lock. */
public class Steps {
    private static Steps way;

    private int from;
    private int to = 3;

    synchronized void move(int by) {
        from += by;
        to += by;
    }

    /** Goes up until it is there. From above it would go on for some four billion steps. */
    int steps() {
        synchronized (this) {
            int steps = 0;
            for (int at = from; at != to; at++) {
                steps++;
            }
            return steps;
        }
    }

    public static void init() {
        way = new Steps();
    }

    /** The first worker counts the steps, the second moves the way. */
    public static void run(int number) {
        if (number == 1) {
            System.out.println(way.steps());
        } else {
            way.move(5);
        }
    }
}

/** A lock that is taken and left again and again by a thread that holds two hundred others. */
public class Nested {
    static final int SIZE = 1000000;
    static final int HELD = 200;

    private final Nested below;
    private int total;

    private Nested(Nested below) {
        this.below = below;
    }

    private synchronized void add(int n) {
        total += n;
    }

    private synchronized void hold(Nested last) {
        if (below != null) {
            below.hold(last);
            return;
        }
        for (int i = 0; i < SIZE; i++) {
            last.add(i);
        }
    }

    public static void init() {
        Nested first = null;
        for (int i = 0; i < HELD; i++) {
            first = new Nested(first);
        }
        Nested last = new Nested(null);
        first.hold(last);
        System.out.println(last.total);
    }
}

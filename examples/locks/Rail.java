/** Two elements that belong together: a rail moves, and its length stays the same. */
public class Rail {
    private static Rail rail;

    private final int[] ends = new int[2];

    Rail() {
        ends[1] = 10;
    }

    synchronized void move(int by) {
        ends[0] += by;
        ends[1] += by;
    }

    synchronized int length() {
        return ends[1] - ends[0];
    }

    public static void init() {
        rail = new Rail();
    }

    /** The first worker reads, and the others move the rail. */
    public static void run(int number) {
        if (number == 1) {
            System.out.println(rail.length());
        } else {
            rail.move(100);
        }
    }
}

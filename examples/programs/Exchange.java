/** A producer and two that pass on, with bounded buffers between them; the last one prints. */
public class Exchange {
    private static final int ITEMS = 12;

    private static Buffer raw;
    private static Buffer made;

    public static void init() {
        raw = new Buffer(2);
        made = new Buffer(3);
    }

    public static void run(int number) throws InterruptedException {
        for (int i = 1; i <= ITEMS; i++) {
            switch (number) {
                case 1:
                    raw.put(i);
                    break;
                case 2:
                    made.put(raw.take() * 7);
                    break;
                default:
                    System.out.println(made.take());
            }
        }
    }

    public static void done() {
        System.out.println(raw.passed());
        System.out.println(made.passed());
    }
}

/** A value that is made once, by whoever asks first: its flag is looked at without the lock first. */
public class Once {
    private static final Once once = new Once();

    private boolean made;
    private int value;

    int get() {
        if (!made) {
            make();
        }
        return value;
    }

    private synchronized void make() {
        if (!made) {
            made = true;
            value = 7;
        }
    }

    public static void run(int number) {
        System.out.println(once.get());
    }
}

/** A count that each worker adds one to, without a lock: an addition may be lost. */
public class Lost {
    private static int count;

    public static void run(int number) {
        count = count + 1;
    }

    public static void done() {
        System.out.println(count);
    }
}

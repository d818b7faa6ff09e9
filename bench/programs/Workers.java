/** Workers that add up numbers of their own, so that each instruction is one event. */
public class Workers {
    static final int SIZE = 200000;

    public static void run(int number) {
        int sum = number;
        for (int i = 0; i < SIZE; i++) {
            sum = sum * 3 ^ i;
        }
    }
}

/** A sieve, again and again: strikes the multiples of each square in an array. */
public class Sieve {
    static final int SIZE = 3000;
    private static final int END = 5000;

    public static void init() {
        int[] struck = new int[END + 1];
        for (int round = 1; round <= SIZE; round++) {
            for (int k = 2; k * k <= END; k++) {
                for (int n = k * k; n <= END; n += k * k) {
                    struck[n] = round;
                }
            }
            for (int n = 1; n <= END; n++) {
                if (struck[n] != round) {
                    struck[0]++;
                }
            }
        }
        System.out.println(struck[0]);
    }
}

/** A sieve: strikes the multiples of each square, so that the numbers stay that no square above 1 divides. */
public class Sieve {
    private static final int END = 200;

    private static int[] struck() {
        int[] struck = new int[END + 1];
        for (int k = 2; k * k <= END; k++) {
            for (int n = k * k; n <= END; n += k * k) {
                struck[n]++;
            }
        }
        return struck;
    }

    public static void init() {
        int[] struck = struck();
        int count = 0;
        int last = 0;
        int most = 0;
        for (int n = 1; n <= END; n++) {
            if (struck[n] == 0) {
                count += 1;
                last = n;
            } else if (struck[n] > struck[most]) {
                most = n;
            }
        }
        System.out.println(count);
        System.out.println(last);
        System.out.println(most);
        System.out.println(struck[most]);
        try {
            struck[END + 1] = 1;
        } catch (ArrayIndexOutOfBoundsException e) {
            System.out.println(-1);
        }
        try {
            System.out.println(struck[-1]);
        } catch (RuntimeException e) {
            System.out.println(-2);
        }
    }
}

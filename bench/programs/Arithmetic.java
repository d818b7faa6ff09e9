/** A loop of arithmetic on locals. */
public class Arithmetic {
    static final int SIZE = 4000000;

    public static void init() {
        int a = 1;
        int b = 7;
        for (int i = 0; i < SIZE; i++) {
            a = a * 31 + (b ^ i);
            b = (a >>> 3) - (b << 1) & 0xffff;
            if ((a & 8) == 0) {
                b += i % 13;
            }
        }
        System.out.println(a + b);
    }
}

/** Arithmetic at its edges. */
public class Edges {
    private static final int LEAST = 0x80000000;
    private static final int GREATEST = 0x7fffffff;

    private static void say(int n) {
        System.out.println(n);
    }

    private static void divide(int a, int b) {
        try {
            say(a / b);
            say(a % b);
        } catch (ArithmeticException e) {
            say(99);
        }
    }

    private static void shift(int a, int by) {
        say(a << by);
        say(a >> by);
        say(a >>> by);
    }

    private static void narrow(int a) {
        say((byte) a);
        say((char) a);
        say((short) a);
    }

    private static void join(int a, int b) {
        say(a & b);
        say(a | b);
        say(a ^ b);
        say(~a);
    }

    private static int compare(int a, int b) {
        int told = 0;
        if (a < b) told += 1;
        if (a <= b) told += 2;
        if (a > b) told += 4;
        if (a >= b) told += 8;
        if (a == b) told += 16;
        if (a != b) told += 32;
        return told;
    }

    private static int sign(int a) {
        int told = 0;
        if (a < 0) told += 1;
        if (a <= 0) told += 2;
        if (a > 0) told += 4;
        if (a >= 0) told += 8;
        if (a == 0) told += 16;
        if (a != 0) told += 32;
        return told;
    }

    private static boolean isOdd(int a) {
        return (a & 1) != 0;
    }

    public static void init() {
        say(GREATEST + 1);
        int most = GREATEST;
        say(++most);
        int least = LEAST;
        say(--least);
        say(-LEAST);
        int n = LEAST;
        say(-n);
        say(n * n);
        say(n * -1);
        say(65537 * most);
        divide(n, -1);
        divide(7, -2);
        divide(-7, 2);
        divide(-7, -2);
        divide(1, 0);
        shift(-17, 1);
        shift(-17, 33);
        shift(1, -1);
        shift(n, 31);
        narrow(127);
        narrow(128);
        narrow(-129);
        narrow(32768);
        narrow(65535);
        narrow(0x12345678);
        join(0x0ff0, 0x3c3c);
        join(-1, n);
        say(compare(n, 1));
        say(compare(1, n));
        say(compare(3, 3));
        say(sign(n));
        say(sign(0));
        say(sign(GREATEST));
        say(isOdd(-3) ? 1 : 0);
        int counter = 100;
        counter += 27;
        counter -= 128;
        say(counter);
        int wrapping = GREATEST;
        wrapping += 127;
        say(wrapping);
        say(32767 + 1);
        say(-32768);
        say(1000000007);
    }
}

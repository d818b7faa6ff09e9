/** Methods that call themselves and one another, and what comes of calls without end. */
public class Recursion {
    private static int deepest;

    private static int ackermann(int m, int n) {
        return m == 0 ? n + 1 : ackermann(m - 1, n == 0 ? 1 : ackermann(m, n - 1));
    }

    private static int fibonacci(int n) {
        return n < 2 ? n : fibonacci(n - 1) + fibonacci(n - 2);
    }

    /** The moves that take a tower from one of three places to another; answers how many there are. */
    private static int hanoi(int discs, int from, int to) {
        if (discs == 0) {
            return 0;
        }
        int other = 6 - from - to;
        int before = hanoi(discs - 1, from, other);
        if (discs == 4) {
            System.out.println(from * 10 + to);
        }
        return before + 1 + hanoi(discs - 1, other, to);
    }

    private static boolean isEven(int n) {
        return n == 0 || isOdd(n - 1);
    }

    private static boolean isOdd(int n) {
        return n != 0 && isEven(n - 1);
    }

    /** The places of queens on a board of some rows that attack nobody, by bits of columns and of both diagonals. */
    private static int queens(int all, int columns, int left, int right) {
        if (columns == all) {
            return 1;
        }
        int found = 0;
        for (int free = all & ~(columns | left | right); free != 0; free &= free - 1) {
            int place = free & -free;
            found += queens(all, columns | place, (left | place) << 1, (right | place) >>> 1);
        }
        return found;
    }

    private static int endless(int n) {
        deepest = n;
        return endless(n + 1) + 1;
    }

    public static void init() {
        System.out.println(ackermann(2, 4));
        System.out.println(fibonacci(12));
        System.out.println(hanoi(5, 1, 3));
        System.out.println(isEven(100) ? 1 : 0);
        System.out.println(isOdd(100) ? 1 : 0);
        System.out.println(queens(0x1f, 0, 0, 0));
        try {
            System.out.println(endless(0));
        } catch (StackOverflowError e) {
            System.out.println(deepest > 200 ? -1 : deepest);
        }
    }

    public static void done() {
        endless(0);
    }
}

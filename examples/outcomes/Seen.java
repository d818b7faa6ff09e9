/** Two threads write a number each, and two others read both: they agree on which came first. */
public class Seen {
    private static volatile int first;
    private static volatile int second;
    private static int firstThenSecond;
    private static int secondThenFirst;

    public static void run(int number) {
        switch (number) {
            case 1: first = 1; break;
            case 2: second = 1; break;
            case 3: firstThenSecond = first * 10 + second; break;
            default: secondThenFirst = second * 10 + first;
        }
    }

    public static void done() {
        System.out.println(firstThenSecond * 100 + secondThenFirst);
    }
}

/** Two accounts with a lock each. A transfer takes both locks, that of the first account first. */
public class Bank {
    private static final Bank first = new Bank();
    private static final Bank second = new Bank();

    private int money = 10;

    private synchronized void add(int n) {
        money = money + n;
    }

    private synchronized int money() {
        return money;
    }

    private static void transfer(int n) {
        synchronized (first) {
            first.add(-n);
            second.add(n);
        }
    }

    private static int sum() {
        synchronized (first) {
            return first.money() + second.money();
        }
    }

    /** The first worker looks at the sum, each other one transfers its number. */
    public static void run(int number) {
        if (number == 1) {
            System.out.println(sum());
        } else {
            transfer(number);
        }
    }

    public static void done() {
        System.out.println(first.money());
        System.out.println(second.money());
    }
}

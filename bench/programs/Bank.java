/** Workers that carry money from one of four accounts to the next, each under its own lock. */
public class Bank {
    static final int SIZE = 200000;

    private static final Bank first = new Bank();
    private static final Bank second = new Bank();
    private static final Bank third = new Bank();
    private static final Bank fourth = new Bank();

    private int balance;

    private synchronized void add(int amount) {
        balance += amount;
    }

    private synchronized int balance() {
        return balance;
    }

    private static Bank account(int number) {
        switch (number & 3) {
            case 0:
                return first;
            case 1:
                return second;
            case 2:
                return third;
            default:
                return fourth;
        }
    }

    public static void run(int number) {
        for (int i = 0; i < SIZE; i++) {
            account(number + i).add(-1);
            account(number + i + 1).add(1);
        }
    }

    public static void done() {
        System.out.println(first.balance() + second.balance() + third.balance() + fourth.balance());
    }
}

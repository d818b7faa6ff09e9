/** Two purses. A payment takes both locks, the payer's first, so two that pay each other may wait for each other. */
public class Purse {
    private static final Purse first = new Purse();
    private static final Purse second = new Purse();

    private int money = 10;

    synchronized void add(int n) {
        money += n;
    }

    void pay(Purse other, int n) {
        synchronized (this) {
            money -= n;
            other.add(n);
        }
    }

    /** The first worker pays from the first purse, the second from the second. */
    public static void run(int number) {
        if (number == 1) {
            first.pay(second, 3);
        } else {
            second.pay(first, 4);
        }
    }

    public static void done() {
        System.out.println(first.money);
        System.out.println(second.money);
    }
}

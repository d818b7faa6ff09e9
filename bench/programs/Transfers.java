/** Transfers between accounts, each of which locks both, the second inside the first. */
public class Transfers {
    static final int SIZE = 600000;

    private int balance = 1000;

    private synchronized int balance() {
        return balance;
    }

    private synchronized void add(int amount) {
        balance += amount;
    }

    private synchronized boolean move(int amount, Transfers to) {
        if (balance() < amount) {
            return false;
        }
        add(-amount);
        to.add(amount);
        return true;
    }

    public static void init() {
        Transfers first = new Transfers();
        Transfers second = new Transfers();
        int refused = 0;
        for (int i = 0; i < SIZE; i++) {
            if (!first.move(i & 63, second)) {
                refused++;
            }
            if (!second.move(i & 31, first)) {
                refused++;
            }
        }
        System.out.println(refused + first.balance() - second.balance());
    }
}

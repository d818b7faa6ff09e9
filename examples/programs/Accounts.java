/** Objects of several classes that make and call one another: constructors that call others, and an inner class. */
public class Accounts {
    static Customer first;

    public static void init() {
        first = new Customer(7);
        Account current = first.open(100);
        Account savings = first.open();
        current.pay(savings, 30);
        savings.pay(current, 5);
        System.out.println(current.balance());
        System.out.println(savings.balance());
        System.out.println(current.statement().last());
        System.out.println(first.total());
    }

    public static void done() {
        Customer second = new Customer(8, new Account(1));
        second.newest().pay(first.newest(), 11);
        System.out.println(first.total());
        System.out.println(second.total());
        System.out.println(Account.opened());
    }
}

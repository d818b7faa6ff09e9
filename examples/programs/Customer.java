/** A customer and the accounts that he has opened, the newest first. */
class Customer {
    private final int number;
    private Account newest;

    Customer(int number) {
        this(number, null);
    }

    Customer(int number, Account newest) {
        this.number = number;
        this.newest = newest;
    }

    Account open() {
        return open(number);
    }

    Account open(int start) {
        newest = new Account(start, newest);
        return newest;
    }

    Account newest() {
        return newest;
    }

    int total() {
        int sum = 0;
        for (Account a = newest; a != null; a = a.older()) {
            sum += a.balance();
        }
        return sum;
    }
}

/** An account that knows the one opened before it, and its payments by an inner class. */
class Account {
    private static int opened;

    private final Account older;
    private final Statement statement;
    private int balance;

    Account(int start) {
        this(start, null);
    }

    Account(int start, Account older) {
        this.balance = start;
        this.older = older;
        this.statement = new Statement(start < 10);
        opened++;
    }

    static int opened() {
        return opened;
    }

    Account older() {
        return older;
    }

    int balance() {
        return balance;
    }

    Statement statement() {
        return statement;
    }

    void pay(Account other, int amount) {
        balance -= amount;
        other.balance += amount;
        statement.note(-amount);
        other.statement.note(amount);
    }

    /** What was paid, in or out. */
    class Statement {
        private final boolean small;
        private int payments;
        private int last;

        Statement(boolean small) {
            this.small = small;
        }

        void note(int amount) {
            payments += small ? 1 : 10;
            last = amount;
        }

        int last() {
            return payments * 1000 + last + balance;
        }
    }
}

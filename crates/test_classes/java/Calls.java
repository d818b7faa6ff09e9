/** Sections of the marks that their callees give. */
class Calls {
    private int total;
    private int loose;
    private final int fixed;

    Calls(int fixed) {
        this.fixed = fixed;
    }

    private int total() {
        return total;
    }

    int fixed() {
        return fixed;
    }

    void store(int k) {
        loose = k;
    }

    int block() {
        synchronized (this) {
            return total;
        }
    }

    static void print(int k) {
        System.out.println(k);
    }

    static void printLater(int k) {
        print(k);
    }

    static Calls make() {
        return new Calls(1);
    }

    static int first(int[] values) {
        return values[0];
    }

    private int down(int k) {
        return k == 0 ? 0 : down(k - 1);
    }

    static int even(int k) {
        return k == 0 ? 1 : odd(k - 1);
    }

    static int odd(int k) {
        return k == 0 ? 0 : even(k - 1);
    }

    synchronized int onThis() {
        return total() + block() + fixed();
    }

    synchronized int offThis(Calls other) {
        return other.fixed();
    }

    synchronized int twice() {
        return onThis() + onThis();
    }

    synchronized void onThisStores() {
        store(1);
    }

    synchronized void offThisStores(Calls other) {
        other.store(1);
    }

    synchronized int offThisReads(Calls other) {
        return other.total();
    }

    synchronized int offThisEnters(Calls other) {
        return other.block();
    }

    synchronized void laterPrints() {
        printLater(1);
    }

    synchronized Calls offThisMakes() {
        return make();
    }

    synchronized int offThisReadsElement(int[] values) {
        return first(values);
    }

    synchronized int recurses(int k) {
        return k == 0 ? 0 : recurses(k - 1);
    }

    synchronized int onThisRecurses(int k) {
        return down(k);
    }

    synchronized int offThisRecurses(int k) {
        return even(k);
    }

    synchronized void storesAndPrints(int k) {
        total = k;
        print(k);
    }
}

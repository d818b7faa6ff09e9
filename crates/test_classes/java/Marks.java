/** Sections of each mark that their own instructions give. */
class Marks {
    private int total;
    private int loose;
    private final int fixed;
    private final Object key;
    static int shared;

    Marks(int fixed, Object key) {
        this.fixed = fixed;
        this.key = key;
    }

    void loosen(int k) {
        loose = k;
    }

    synchronized int reads(int[] values) {
        return total + fixed + values.length;
    }

    int nests() {
        synchronized (this) {
            synchronized (this) {
                return total;
            }
        }
    }

    synchronized void storesField(int k) {
        total = k;
    }

    synchronized void storesStatic(int k) {
        shared = k;
    }

    synchronized void storesElement(int[] values) {
        values[0] = 1;
    }

    synchronized Marks makesTwo() {
        return new Marks(1, new Marks(2, null));
    }

    synchronized int[] makesArray() {
        return new int[1];
    }

    int entersOther(Marks other) {
        synchronized (this) {
            synchronized (other) {
                return 1;
            }
        }
    }

    synchronized int callsOther(Marks other) {
        return other.reads(null);
    }

    synchronized void prints() {
        System.out.println(1);
    }

    synchronized void waits() throws InterruptedException {
        wait();
    }

    synchronized void notifies() {
        notify();
    }

    synchronized void notifiesAll() {
        notifyAll();
    }

    synchronized int readsStatic() {
        return shared;
    }

    synchronized int readsElement(int[] values) {
        return values[0];
    }

    synchronized int readsLoose() {
        return loose;
    }

    synchronized int readsOther(Marks other) {
        return other.total;
    }

    int onKey() {
        synchronized (key) {
            return total;
        }
    }

    int printsOnKey() {
        synchronized (key) {
            System.out.println(1);
            return 1;
        }
    }
}

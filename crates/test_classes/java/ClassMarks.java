/** Static synchronized methods of each mark that a section on a class may have, and sections on `this` beside them. */
class ClassMarks {
    static final ClassMarks first = new ClassMarks();

    private static int total = 1;
    private static int loose;
    static int open;

    private int value;

    static void loosen(int k) {
        loose = k;
    }

    static int total() {
        return total;
    }

    static int down(int k) {
        return k == 0 ? 0 : down(k - 1);
    }

    private int value() {
        return value;
    }

    static synchronized int reads(int[] values) {
        return total + values.length;
    }

    static synchronized int calls() {
        return reads(null) + total();
    }

    static synchronized ClassMarks readsFinal() {
        return first;
    }

    static synchronized void stores(int k) {
        total = k;
    }

    static synchronized int[] makes() {
        return new int[1];
    }

    static synchronized int enters(ClassMarks other) {
        synchronized (other) {
            return total;
        }
    }

    static synchronized int callsOther(ClassMarks other) {
        return other.get();
    }

    static synchronized void prints() {
        System.out.println(total);
    }

    static synchronized void notifies(Object other) {
        other.notify();
    }

    static synchronized int readsOpen() {
        return open;
    }

    static synchronized int readsLoose() {
        return loose;
    }

    static synchronized int readsField(ClassMarks other) {
        return other.value;
    }

    static synchronized int readsElement(int[] values) {
        return values[0];
    }

    static synchronized void callsStores() {
        stores(1);
    }

    static synchronized int callsReads(ClassMarks other) {
        return other.value();
    }

    static synchronized int recurses(int k) {
        return down(k);
    }

    synchronized int get() {
        return value;
    }

    synchronized void set(int k) {
        value = k;
    }

    synchronized int readsTotal() {
        return total;
    }

    synchronized int callsTotal() {
        return total();
    }
}

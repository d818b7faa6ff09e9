/** Arrays that never leave their object, and those that do. */
class Kept {
    private final int[] pair = new int[2];
    private int[] grown;
    private int[] handed = new int[1];
    private int[] given;
    private int[] held = new int[1];
    private int[] loose = new int[1];
    private int[] left = new int[1];
    private int[] right = new int[1];

    synchronized void set(int n) {
        pair[0] = n;
        pair[1] = n;
    }

    synchronized int sum() {
        return pair[0] + pair[1];
    }

    synchronized int length() {
        return pair.length + grown.length;
    }

    synchronized int either(boolean first) {
        return pair[first ? 0 : 1];
    }

    synchronized void grow(int n) {
        grown = new int[n];
    }

    synchronized int at(int i) {
        return grown[i];
    }

    synchronized int calls() {
        return sum() + at(0);
    }

    int asks(Kept other) {
        synchronized (this) {
            return other.last();
        }
    }

    int last() {
        return pair[1];
    }

    synchronized int asksItself() {
        return last();
    }

    int[] handsOut() {
        return handed;
    }

    synchronized int readsHanded() {
        return handed[0];
    }

    void takes(int[] from) {
        given = from;
    }

    synchronized int readsGiven() {
        return given[0];
    }

    synchronized int readsHeld() {
        int[] local = held;
        return local[0];
    }

    void writesLoose() {
        loose[0] = 1;
    }

    synchronized int readsLoose() {
        return loose[0];
    }

    synchronized int readsOne(boolean first) {
        return (first ? left : right)[0];
    }
}

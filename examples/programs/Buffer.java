/** A bounded buffer of numbers: a producer waits while it is full, a consumer while it is empty. */
class Buffer {
    private final int[] items;
    private int first;
    private int count;
    private int passed;

    Buffer(int room) {
        items = new int[room];
    }

    synchronized void put(int item) throws InterruptedException {
        while (count == items.length) {
            wait();
        }
        items[(first + count++) % items.length] = item;
        notifyAll();
    }

    synchronized int take() throws InterruptedException {
        while (count == 0) {
            wait();
        }
        int item = items[first];
        first = (first + 1) % items.length;
        count--;
        passed++;
        notifyAll();
        return item;
    }

    int passed() {
        synchronized (this) {
            return passed;
        }
    }
}

import java.util.concurrent.atomic.AtomicInteger;

class CompareAndSet {
    static final AtomicInteger owner = new AtomicInteger();

    static void init() {
        owner.compareAndSet(0, 1);
    }
}

class CompareAndSetMended {
    static final CompareAndSetMended owner = new CompareAndSetMended();

    private int value;

    synchronized boolean compareAndSet(int expected, int next) {
        if (value != expected) {
            return false;
        }
        value = next;
        return true;
    }

    static void init() {
        owner.compareAndSet(0, 1);
    }
}

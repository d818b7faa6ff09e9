class NewLocks {
    static void init() {
        Object lock = new Object();
        for (int i = 0; i < 2; i++) {
            synchronized (lock) {
            }
            lock = new Object();
        }
    }
}

class NewLocksMended {
    private static Object make() {
        return new Object();
    }

    static void init() {
        Object lock = make();
        for (int i = 0; i < 2; i++) {
            synchronized (lock) {
            }
            lock = make();
        }
    }
}

class ClassLock {
    private static int count;

    static synchronized void init() {
        count++;
    }
}

class ClassLockMended {
    private static int count;

    private static synchronized void add() {
        count++;
    }

    static void init() {
        add();
    }
}

class ClassObject {
    static void init() {
        synchronized (ClassObject.class) {
        }
    }
}

class ClassObjectMended {
    private static final Object lock = new Object();

    static void init() {
        synchronized (lock) {
        }
    }
}

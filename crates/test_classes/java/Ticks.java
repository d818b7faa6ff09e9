/** Sections that call a static synchronized method, one of them by another method. */
class Ticks {
    private static int count;

    static synchronized int count() {
        return count;
    }

    static int later() {
        return count();
    }

    synchronized int calls() {
        return count();
    }

    synchronized int callsLater() {
        return later();
    }
}

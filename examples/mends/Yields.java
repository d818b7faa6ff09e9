class Yields {
    private boolean open;

    synchronized boolean isOpen() {
        return open;
    }

    synchronized void open() {
        open = true;
    }

    static void init() {
        Yields gate = new Yields();
        gate.open();
        while (!gate.isOpen()) {
            Thread.yield();
        }
    }
}

class YieldsMended {
    private boolean open;

    synchronized void await() throws InterruptedException {
        while (!open) {
            wait();
        }
    }

    synchronized void open() {
        open = true;
        notifyAll();
    }

    static void init() throws InterruptedException {
        YieldsMended gate = new YieldsMended();
        gate.open();
        gate.await();
    }
}

class TimedWait {
    static void init() throws InterruptedException {
        TimedWait here = new TimedWait();
        synchronized (here) {
            here.wait(10);
        }
    }
}

class TimedWaitMended {
    static void init() throws InterruptedException {
        TimedWaitMended here = new TimedWaitMended();
        synchronized (here) {
            here.notify();
        }
    }
}

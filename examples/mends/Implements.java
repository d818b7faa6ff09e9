class Implements implements Runnable {
    public void run() {
    }

    static void init() {
        new Implements().run();
    }
}

class ImplementsMended {
    public void run() {
    }

    static void init() {
        new ImplementsMended().run();
    }
}

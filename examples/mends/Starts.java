class Starts {
    static void init() {
        new Thread().start();
    }
}

class StartsMended {
    static void init() {
    }

    static void run(int number) {
    }
}

class PrintsText {
    static void init() {
        System.out.println("done");
    }
}

class PrintsTextMended {
    static final int DONE = 1000;

    static void init() {
        int printed = DONE;
    }
}

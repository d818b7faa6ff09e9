class Enumerated {
    enum State { FREE, HELD }

    static void init() {
        State state = State.FREE;
    }
}

class EnumeratedMended {
    static final int FREE = 0, HELD = 1;

    static void init() {
        int state = FREE;
    }
}

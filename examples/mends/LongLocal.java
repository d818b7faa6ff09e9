class LongLocal {
    static void init() {
        long sum = 40;
        sum = sum + 2;
    }
}

class LongLocalMended {
    static void init() {
        int sum = 40;
        sum = sum + 2;
    }
}

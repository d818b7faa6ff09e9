class MathMax {
    static void init() {
        int most = Math.max(1, 2);
    }
}

class MathMaxMended {
    static int max(int a, int b) {
        return a < b ? b : a;
    }

    static void init() {
        int most = max(1, 2);
    }
}

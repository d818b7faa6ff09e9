class Wide {
    static void init() {
        int x = 1;
        x += 1000;
    }
}

class WideMended {
    static void init() {
        int x = 1;
        x = x + 1000;
    }
}

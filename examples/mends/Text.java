class Text {
    static final String NAME = "stock";

    static void init() {
    }
}

class TextMended {
    static final int NUMBER = 1;

    static void init() {
    }
}

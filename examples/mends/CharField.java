class CharField {
    char sign;

    static void init() {
        new CharField();
    }
}

class CharFieldMended {
    int sign;

    static void init() {
        new CharFieldMended();
    }
}

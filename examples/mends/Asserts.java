class Asserts {
    static void init() {
        int size = 1;
        assert size > 0;
    }
}

class AssertsMended {
    static void init() {
        int size = 1;
        if (size <= 0) {
            throw new Error();
        }
    }
}

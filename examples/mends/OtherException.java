class OtherException {
    static void init() {
        try {
            throw new IllegalStateException();
        } catch (RuntimeException bad) {
        }
    }
}

class OtherExceptionMended {
    static void init() {
        try {
            throw new RuntimeException();
        } catch (RuntimeException bad) {
        }
    }
}

class OwnException {
    static class Full extends RuntimeException {}

    static void init() {
        try {
            throw new Full();
        } catch (Full full) {
        }
    }
}

class OwnExceptionMended {
    static void init() {
        try {
            throw new RuntimeException();
        } catch (RuntimeException full) {
        }
    }
}

class Message {
    static void init() {
        try {
            throw new RuntimeException("full");
        } catch (RuntimeException full) {
        }
    }
}

class MessageMended {
    static void init() {
        try {
            throw new RuntimeException();
        } catch (RuntimeException full) {
        }
    }
}

class Main {
    public static void main(String[] words) {
    }
}

class MainMended {
    public static void init() {
    }
}

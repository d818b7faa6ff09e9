class PrintsBoolean {
    static void init() {
        boolean full = true;
        System.out.println(full);
    }
}

class PrintsBooleanMended {
    static int number(boolean truth) {
        return truth ? 1 : 0;
    }

    static void init() {
        boolean full = true;
        int printed = number(full);
    }
}

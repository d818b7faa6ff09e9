class Booleans {
    static void init() {
        boolean[] seen = new boolean[3];
        seen[1] = true;
    }
}

class BooleansMended {
    static void init() {
        int[] seen = new int[3];
        seen[1] = 1;
    }
}

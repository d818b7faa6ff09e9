class Copies {
    static void init() {
        int[] values = new int[2], copy = new int[2];
        System.arraycopy(values, 0, copy, 0, 2);
    }
}

class CopiesMended {
    static void init() {
        int[] values = new int[2], copy = new int[2];
        for (int i = 0; i < 2; i++) {
            copy[i] = values[i];
        }
    }
}

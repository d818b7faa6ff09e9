class Clones {
    static void init() {
        int[] values = new int[2];
        int[] copy = values.clone();
    }
}

class ClonesMended {
    static void init() {
        int[] values = new int[2];
        int[] copy = new int[values.length];
        for (int i = 0; i < values.length; i++) {
            copy[i] = values[i];
        }
    }
}

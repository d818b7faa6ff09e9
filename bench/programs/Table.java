/**
 * Workers that look up numbers in one hash table of two arrays, and put one in ten times; to look
 * up needs no lock.
 */
public class Table {
    static final int SIZE = 200000;

    private static final Table shared = new Table();

    private final int[] keys = new int[1024];
    private final int[] values = new int[1024];

    private synchronized int get(int key) {
        int at = key & 1023;
        while (keys[at] != 0 && keys[at] != key) {
            at = at + 1 & 1023;
        }
        return values[at];
    }

    private synchronized void put(int key, int value) {
        int at = key & 1023;
        while (keys[at] != 0 && keys[at] != key) {
            at = at + 1 & 1023;
        }
        keys[at] = key;
        values[at] = value;
    }

    public static void run(int number) {
        Table table = shared;
        int wrong = 0;
        for (int i = 0; i < SIZE; i++) {
            int key = i * 31 % 500 + 1;
            if (i % 10 == 9) {
                table.put(key, key);
            } else {
                int value = table.get(key);
                if (value != 0 && value != key) {
                    wrong++;
                }
            }
        }
        System.out.println(wrong);
    }
}

/** Words that are turned round and whose bits are counted. */
public class Bits {
    static final int SIZE = 1500000;

    private static int count(int word) {
        word -= word >>> 1 & 0x55555555;
        word = (word & 0x33333333) + (word >>> 2 & 0x33333333);
        word = word + (word >>> 4) & 0x0f0f0f0f;
        return word * 0x01010101 >>> 24;
    }

    private static int turned(int word) {
        word = word >>> 1 & 0x55555555 | (word & 0x55555555) << 1;
        word = word >>> 2 & 0x33333333 | (word & 0x33333333) << 2;
        word = word >>> 4 & 0x0f0f0f0f | (word & 0x0f0f0f0f) << 4;
        word = word >>> 8 & 0x00ff00ff | (word & 0x00ff00ff) << 8;
        return word >>> 16 | word << 16;
    }

    public static void init() {
        int word = 1;
        int sum = 0;
        for (int i = 0; i < SIZE; i++) {
            word ^= word << 13;
            word ^= word >>> 17;
            word ^= word << 5;
            sum += count(turned(word) & i);
        }
        System.out.println(sum);
    }
}

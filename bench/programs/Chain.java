/** A linked list, which is turned round and walked. */
public class Chain {
    static final int SIZE = 5000;
    private static final int LENGTH = 400;

    private final int number;
    private Chain next;

    Chain(int number, Chain next) {
        this.number = number;
        this.next = next;
    }

    private static Chain turned(Chain chain) {
        Chain done = null;
        while (chain != null) {
            Chain rest = chain.next;
            chain.next = done;
            done = chain;
            chain = rest;
        }
        return done;
    }

    private static int greatest(Chain chain) {
        int most = 0;
        for (Chain at = chain; at != null; at = at.next) {
            if (at.number > most) {
                most = at.number;
            }
        }
        return most;
    }

    public static void init() {
        Chain chain = null;
        for (int i = 0; i < LENGTH; i++) {
            chain = new Chain(i * 17 % LENGTH, chain);
        }
        int sum = 0;
        for (int round = 0; round < SIZE; round++) {
            chain = turned(chain);
            sum += greatest(chain) - chain.number;
        }
        System.out.println(sum);
    }
}

/**
 * A map over two arrays, with keys from 1 on: workers add to entries, each to those of its own keys
 * and all to one, and look up without the lock.
 */
public class Map {
    private static final int PLACES = 64;
    private static final int ROUNDS = 4;
    private static final Map map = new Map();

    private final int[] keys = new int[PLACES];
    private final int[] values = new int[PLACES];
    private int size;

    /** The place of a key, or the free place for it. */
    private int placeOf(int key) {
        int place = key * 37 % PLACES;
        while (keys[place] != 0 && keys[place] != key) {
            place = (place + 1) % PLACES;
        }
        return place;
    }

    synchronized void add(int key, int n) {
        int place = placeOf(key);
        if (keys[place] == 0) {
            keys[place] = key;
            size++;
        }
        values[place] += n;
    }

    synchronized int get(int key) {
        return values[placeOf(key)];
    }

    synchronized boolean has(int key) {
        return keys[placeOf(key)] == key;
    }

    /** The sum of all values, or -1 where there are more or fewer entries than there should be. */
    int sum() {
        synchronized (this) {
            int found = 0;
            int sum = 0;
            for (int i = 0; i < keys.length; i++) {
                if (keys[i] != 0) {
                    found++;
                    sum += values[i];
                }
            }
            return found == size ? sum : -1;
        }
    }

    public static void init() {
        map.add(1, 0);
        System.out.println(map.has(1) && !map.has(2) ? map.get(1) : -1);
    }

    /** Each worker has keys of its own, and all of them add to the key 1. */
    public static void run(int number) {
        for (int i = 0; i < ROUNDS; i++) {
            int key = number * ROUNDS + i;
            map.add(key, key);
            map.add(1, 1);
            if (map.get(key) != key || map.sum() < key) {
                System.out.println(-number);
            }
        }
    }

    public static void done() {
        System.out.println(map.get(1));
        System.out.println(map.sum());
        System.out.println(map.size);
    }
}

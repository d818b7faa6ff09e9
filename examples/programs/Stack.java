/**
 * A stack over an array: workers push numbers in pairs whose sum is 0, look at it without the lock,
 * and take pairs off.
 */
public class Stack {
    private static final int ROUNDS = 4;
    private static final Stack stack = new Stack(4 * 8 * ROUNDS);
    private static final Stack small = new Stack(2);

    private final RuntimeException empty = new RuntimeException();
    private int[] places;
    private int size;
    private int taken;

    Stack(int most) {
        places = new int[most];
    }

    synchronized void push(int n) {
        places[size] = n;
        places[size + 1] = -n;
        size += 2;
    }

    synchronized void pop() {
        if (size == 0) {
            throw empty;
        }
        size -= 2;
        taken += places[size];
    }

    /** The topmost pair's sum: 0, as that of each pair, whenever nobody holds the lock. */
    synchronized int top() {
        if (size == 0) {
            throw empty;
        }
        return places[size - 1] + places[size - 2];
    }

    synchronized int at(int place) {
        return places[place];
    }

    /** Whether the sum of each pair is 0. */
    synchronized boolean fits() {
        for (int i = 0; i < size; i += 2) {
            if (places[i] + places[i + 1] != 0) {
                return false;
            }
        }
        return true;
    }

    synchronized int sum() {
        return sumUpTo(size);
    }

    private int sumUpTo(int end) {
        int sum = 0;
        for (int i = 0; i < end; i++) {
            sum += places[i];
        }
        return sum;
    }

    int left() {
        synchronized (this) {
            return places.length - size;
        }
    }

    /** Empties it, with a new array. */
    synchronized void clear(int most) {
        places = new int[most];
        size = 0;
    }

    public static void init() {
        try {
            small.top();
        } catch (RuntimeException e) {
            System.out.println(small.left());
        }
        small.push(7);
        try {
            System.out.println(small.at(1));
            System.out.println(small.at(2));
        } catch (ArrayIndexOutOfBoundsException e) {
            System.out.println(small.at(0));
        }
        try {
            small.push(8);
        } catch (ArrayIndexOutOfBoundsException e) {
            System.out.println(small.sum());
        }
        small.clear(4);
        small.push(8);
        System.out.println(small.left());
    }

    public static void run(int number) {
        for (int i = 0; i < ROUNDS; i++) {
            int n = number * ROUNDS + i;
            stack.push(n);
            if (stack.sum() != 0 || stack.top() != 0) {
                System.out.println(-1);
            }
            stack.push(n);
            if (!stack.fits()) {
                System.out.println(-2);
            }
        }
        for (int i = 0; i < ROUNDS; i++) {
            stack.pop();
            if (stack.sum() != 0) {
                System.out.println(-3);
            }
        }
    }

    public static void done() {
        System.out.println(stack.left());
        try {
            while (true) {
                stack.pop();
            }
        } catch (RuntimeException e) {
            System.out.println(stack.left());
        }
        System.out.println(stack.taken);
    }
}

/** Four ways to sort an array of ints, each on the same numbers. */
public class Sorting {
    private static final int LENGTH = 60;

    /** Numbers that look random, of both signs. */
    private static int[] numbers() {
        int[] a = new int[LENGTH];
        int seed = 12345;
        for (int i = 0; i < a.length; i++) {
            seed = seed * 1103515245 + 12345;
            a[i] = seed >> 20;
        }
        return a;
    }

    private static void swap(int[] a, int i, int j) {
        int kept = a[i];
        a[i] = a[j];
        a[j] = kept;
    }

    private static void insertion(int[] a) {
        for (int i = 1; i < a.length; i++) {
            int x = a[i];
            int j = i;
            while (j > 0 && a[j - 1] > x) {
                a[j] = a[--j];
            }
            a[j] = x;
        }
    }

    private static void quick(int[] a, int from, int to) {
        if (from >= to) {
            return;
        }
        int middle = a[(from + to) >>> 1];
        int i = from;
        int j = to;
        do {
            while (a[i] < middle) {
                i++;
            }
            while (middle < a[j]) {
                j--;
            }
            if (i <= j) {
                swap(a, i++, j--);
            }
        } while (i <= j);
        quick(a, from, j);
        quick(a, i, to);
    }

    private static void sink(int[] a, int i, int length) {
        for (int child; (child = 2 * i + 1) < length; i = child) {
            if (child + 1 < length && a[child + 1] > a[child]) {
                child++;
            }
            if (a[i] >= a[child]) {
                return;
            }
            swap(a, i, child);
        }
    }

    private static void heap(int[] a) {
        for (int i = a.length / 2; i-- > 0; ) {
            sink(a, i, a.length);
        }
        for (int last = a.length - 1; last > 0; last--) {
            swap(a, 0, last);
            sink(a, 0, last);
        }
    }

    private static int[] merged(int[] a) {
        if (a.length < 2) {
            return a;
        }
        int half = a.length / 2;
        int[] left = merged(part(a, 0, half));
        int[] right = merged(part(a, half, a.length));
        int[] all = new int[a.length];
        for (int i = 0, l = 0, r = 0; i < all.length; ) {
            all[i++] = r == right.length || l < left.length && left[l] <= right[r] ? left[l++] : right[r++];
        }
        return all;
    }

    private static int[] part(int[] a, int from, int to) {
        int[] made = new int[to - from];
        for (int i = from; i < to; i++) {
            made[i - from] = a[i];
        }
        return made;
    }

    private static int sum(int[] a) {
        int sum = 0;
        for (int x : a) {
            sum = sum * 31 + x;
        }
        return sum;
    }

    public static void init() {
        int[] a = numbers();
        System.out.println(sum(a));
        insertion(a);
        for (int i = 0; i < a.length; i += 12) {
            System.out.println(a[i]);
        }
        int[] b = numbers();
        quick(b, 0, b.length - 1);
        int[] c = numbers();
        heap(c);
        int[] d = merged(numbers());
        System.out.println(sum(a));
        System.out.println(sum(b) - sum(a));
        System.out.println(sum(c) - sum(a));
        System.out.println(sum(d) - sum(a));
    }
}

/** An array, filled by chance and sorted by insertion into halves of a gap. */
public class Sort {
    static final int SIZE = 250;
    private static final int LENGTH = 2000;

    private static void sort(int[] numbers) {
        for (int gap = numbers.length / 2; gap > 0; gap /= 2) {
            for (int i = gap; i < numbers.length; i++) {
                int number = numbers[i];
                int at = i;
                while (at >= gap && numbers[at - gap] > number) {
                    numbers[at] = numbers[at - gap];
                    at -= gap;
                }
                numbers[at] = number;
            }
        }
    }

    public static void init() {
        int[] numbers = new int[LENGTH];
        int seed = 1;
        int sum = 0;
        for (int round = 0; round < SIZE; round++) {
            for (int i = 0; i < LENGTH; i++) {
                seed = seed * 1103515245 + 12345;
                numbers[i] = seed >>> 16;
            }
            sort(numbers);
            sum += numbers[LENGTH / 2];
        }
        System.out.println(sum);
    }
}

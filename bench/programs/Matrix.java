/** Products of two matrices in arrays. */
public class Matrix {
    static final int SIZE = 150;
    private static final int WIDTH = 40;

    private static void multiply(int[] left, int[] right, int[] product) {
        for (int row = 0; row < WIDTH; row++) {
            for (int column = 0; column < WIDTH; column++) {
                int sum = 0;
                for (int k = 0; k < WIDTH; k++) {
                    sum += left[row * WIDTH + k] * right[k * WIDTH + column];
                }
                product[row * WIDTH + column] = sum;
            }
        }
    }

    public static void init() {
        int[] left = new int[WIDTH * WIDTH];
        int[] right = new int[WIDTH * WIDTH];
        int[] product = new int[WIDTH * WIDTH];
        for (int i = 0; i < WIDTH * WIDTH; i++) {
            left[i] = i % 7;
            right[i] = i % 5 - 2;
        }
        for (int round = 0; round < SIZE; round++) {
            multiply(left, right, product);
            left[round % left.length] += product[round * 31 % product.length] & 15;
        }
        System.out.println(product[WIDTH]);
    }
}

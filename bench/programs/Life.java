/** Cells of a torus that live on and die by how many of their neighbours live. */
public class Life {
    static final int SIZE = 600;
    private static final int WIDTH = 32;

    private int[] cells = new int[WIDTH * WIDTH];
    private int[] next = new int[WIDTH * WIDTH];

    private int at(int row, int column) {
        return cells[(row & WIDTH - 1) * WIDTH + (column & WIDTH - 1)];
    }

    private void step() {
        for (int row = 0; row < WIDTH; row++) {
            for (int column = 0; column < WIDTH; column++) {
                int around = 0;
                for (int i = -1; i <= 1; i++) {
                    around += at(row + i, column - 1) + at(row + i, column) + at(row + i, column + 1);
                }
                int own = at(row, column);
                around -= own;
                next[row * WIDTH + column] = around == 3 || around == 2 && own == 1 ? 1 : 0;
            }
        }
        int[] done = cells;
        cells = next;
        next = done;
    }

    public static void init() {
        Life life = new Life();
        int seed = 1;
        for (int i = 0; i < WIDTH * WIDTH; i++) {
            seed = seed * 1103515245 + 12345;
            life.cells[i] = seed >>> 20 & 1;
        }
        for (int round = 0; round < SIZE; round++) {
            life.step();
        }
        int alive = 0;
        for (int i = 0; i < WIDTH * WIDTH; i++) {
            alive += life.cells[i];
        }
        System.out.println(alive);
    }
}

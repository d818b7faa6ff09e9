/** All ways to place queens on a board so that none attacks another, by trying and going back. */
public class Queens {
    static final int SIZE = 600;
    private static final int WIDTH = 7;

    private final int[] rows = new int[WIDTH];
    private int found;

    private boolean fits(int column, int row) {
        for (int i = 0; i < column; i++) {
            int apart = rows[i] - row;
            if (apart == 0 || apart == column - i || apart == i - column) {
                return false;
            }
        }
        return true;
    }

    private void place(int column) {
        if (column == WIDTH) {
            found++;
            return;
        }
        for (int row = 0; row < WIDTH; row++) {
            if (fits(column, row)) {
                rows[column] = row;
                place(column + 1);
            }
        }
    }

    public static void init() {
        Queens queens = new Queens();
        for (int round = 0; round < SIZE; round++) {
            queens.place(0);
        }
        System.out.println(queens.found);
    }
}

/** Numbered colours. */
class Palette {
    static final int RED = 1;
    static final int GREEN = RED << 1;
    static final int BLUE = GREEN << 1;
    static int mixed = RED | BLUE;

    static int next(int colours) {
        return (colours << 1 | colours >>> 2) & 7;
    }
}

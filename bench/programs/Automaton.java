/** An automaton that goes from state to state by the kinds of signs, with a switch for each. */
public class Automaton {
    static final int SIZE = 2500000;

    private static int kind(int sign) {
        switch (sign) {
            case 10:
                return 0;
            case 32:
                return 1;
            case 34:
                return 2;
            case 47:
                return 3;
            case 92:
                return 4;
            case 125:
                return 5;
            default:
                return 6;
        }
    }

    private static int after(int state, int kind) {
        switch (state) {
            case 0:
                return kind == 2 ? 1 : kind == 3 ? 3 : 0;
            case 1:
                return kind == 2 ? 0 : kind == 4 ? 2 : 1;
            case 2:
                return 1;
            case 3:
                return kind == 3 ? 4 : 0;
            default:
                return kind == 0 ? 0 : 4;
        }
    }

    public static void init() {
        int state = 0;
        int noted = 0;
        int sign = 1;
        for (int i = 0; i < SIZE; i++) {
            sign = sign * 109 + 89 & 127;
            state = after(state, kind(sign));
            if (state == 4) {
                noted++;
            }
        }
        System.out.println(noted);
    }
}

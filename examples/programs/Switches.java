/** A machine of its own in a switch, with its program in an array; and the edges of both kinds of switch. */
public class Switches {
    private static final int PUSH = 0;
    private static final int ADD = 1;
    private static final int MULTIPLY = 2;
    private static final int COPY = 3;
    private static final int PRINT = 4;
    private static final int DOWN = 5;
    private static final int JUMP = 6;
    private static final int SWAP = 7;
    private static final int STOP = 8;

    /** Runs a program on a small stack; answers how many steps it took. */
    private static int run(int[] code) {
        int[] stack = new int[8];
        int top = 0;
        int at = 0;
        int steps = 0;
        while (true) {
            steps++;
            switch (code[at++]) {
                case PUSH:
                    stack[top++] = code[at++];
                    break;
                case ADD:
                    stack[top - 2] += stack[--top];
                    break;
                case MULTIPLY:
                    top--;
                    stack[top - 1] *= stack[top];
                    break;
                case COPY:
                    stack[top] = stack[top++ - 1];
                    break;
                case PRINT:
                    System.out.println(stack[--top]);
                    break;
                case DOWN:
                    stack[top - 1]--;
                    break;
                case JUMP:
                    if (stack[top - 1] != 0) {
                        at = code[at];
                        break;
                    }
                    at++;
                    break;
                case SWAP:
                    int kept = stack[top - 1];
                    stack[top - 1] = stack[top - 2];
                    stack[top - 2] = kept;
                    break;
                case STOP:
                    return steps;
                default:
                    return -1;
            }
        }
    }

    /** The product of 1 to n: the stack has what is made, and what is left to multiply. */
    private static int[] product(int n) {
        int[] code = new int[20];
        int at = 0;
        code[at++] = PUSH;
        code[at++] = 1;
        code[at++] = PUSH;
        code[at++] = n;
        int again = at;
        code[at++] = COPY;
        code[at++] = PRINT;
        code[at++] = SWAP;
        code[at++] = PUSH;
        code[at++] = 2;
        code[at++] = MULTIPLY;
        code[at++] = SWAP;
        code[at++] = DOWN;
        code[at++] = JUMP;
        code[at++] = again;
        code[at++] = ADD;
        code[at++] = PRINT;
        code[at++] = STOP;
        return code;
    }

    /** Keys far from one another, with arms that fall into the next. */
    private static int far(int n) {
        int sum = 0;
        switch (n) {
            case -2147483648: sum += 1;
            case -1: sum += 2;
            case 1000: sum += 4; break;
            case 2147483647: sum += 8;
            default: sum += 16;
        }
        return sum;
    }

    /** Keys side by side below 0 and above. */
    private static int near(int n) {
        switch (n) {
            case -2: return 1;
            case -1: return 2;
            case 0: return 3;
            case 2: return 4;
            default: return 5;
        }
    }

    public static void init() {
        System.out.println(run(product(5)));
        System.out.println(far(-2147483648));
        System.out.println(far(-1));
        System.out.println(far(0));
        System.out.println(far(1000));
        System.out.println(far(2147483647));
        for (int n = -3; n < 4; n++) {
            System.out.println(near(n));
        }
        System.out.println(near(2147483647));
        System.out.println(near(-2147483648));
        System.out.println(run(new int[] {PUSH, 3, 9}));
    }
}

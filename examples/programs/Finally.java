/** What try, catch and finally do: in order, across calls, with returns, and with exceptions on top of others. */
public class Finally {
    private static void say(int n) {
        System.out.println(n);
    }

    /** Fails in a way of its own for each kind. */
    private static int fails(int kind) throws Exception {
        int[] some = new int[1];
        int[] none = null;
        switch (kind) {
            case 0: return 1 / kind;
            case 1: return some[kind];
            case 2: return none.length;
            case 3: return new int[-kind].length;
            case 4: throw new IllegalMonitorStateException();
            case 5: throw new Exception();
            case 6: throw new StackOverflowError();
            case 7: throw null;
            default: return kind;
        }
    }

    /** Which handler takes it: the first that fits. */
    private static int caught(int kind) {
        try {
            return fails(kind);
        } catch (ArithmeticException e) {
            return 10;
        } catch (ArrayIndexOutOfBoundsException | NegativeArraySizeException e) {
            return 11;
        } catch (NullPointerException e) {
            return 12;
        } catch (RuntimeException e) {
            return 13;
        } catch (Exception e) {
            return 14;
        } catch (Throwable e) {
            return 15;
        } finally {
            say(100 + kind);
        }
    }

    /** The value of the return stays, whatever is done to the variable behind it. */
    private static int kept() {
        int n = 1;
        try {
            return n;
        } finally {
            n = 2;
            say(n);
        }
    }

    /** A return in a finally block drops what was thrown. */
    @SuppressWarnings("finally")
    private static int dropped() {
        try {
            throw new Error();
        } finally {
            return 3;
        }
    }

    /** The later exception stands for the one before. */
    private static void replaced() {
        try {
            try {
                say(1 / (kept() - 1));
            } finally {
                say(20);
                throw new NullPointerException();
            }
        } catch (NullPointerException e) {
            say(21);
        } catch (ArithmeticException e) {
            say(22);
        }
    }

    /** Leaves loops through blocks that have to be done first. */
    private static int left() {
        int passes = 0;
        outer:
        for (int i = 0; i < 5; i++) {
            try {
                for (int j = 0; ; j++) {
                    try {
                        if (j == 2) {
                            continue outer;
                        }
                        if (i == 3) {
                            break outer;
                        }
                    } finally {
                        passes += 1;
                    }
                }
            } finally {
                passes += 100;
            }
        }
        return passes;
    }

    public static void init() {
        for (int kind = 0; kind < 9; kind++) {
            say(caught(kind));
        }
        say(kept());
        say(dropped());
        replaced();
        say(left());
    }

    public static void done() throws Exception {
        try {
            say(fails(9));
            fails(5);
        } finally {
            say(30);
        }
    }
}

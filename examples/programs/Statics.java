/** Statics of several classes, their constants and their initial values. */
public class Statics {
    static final int STEP = 3;
    static final boolean LOUD = true;
    static int count = 10;
    static boolean even;
    static int[] squares = new int[8];
    static Statics only = new Statics(4);

    static {
        for (int i = 0; i < squares.length; i++) {
            squares[i] = i * i;
        }
        even = count % 2 == 0;
    }

    private final int start;

    Statics(int start) {
        this.start = start;
        count += STEP;
    }

    public static void init() {
        System.out.println(count);
        System.out.println(even ? 1 : 0);
        System.out.println(squares[5]);
        System.out.println(only.start);
        System.out.println(Defaults.number);
        System.out.println(Defaults.flag ? 1 : 0);
        System.out.println(Defaults.array == null ? 1 : 0);
        System.out.println(Palette.RED);
        System.out.println(Palette.mixed);
        System.out.println(Palette.next(Palette.GREEN));
        if (LOUD) {
            Palette.mixed = Palette.next(Palette.mixed);
        }
        count++;
        Defaults.flag = !Defaults.flag;
    }

    public static void done() {
        System.out.println(count);
        System.out.println(Palette.mixed);
        System.out.println(Defaults.flag ? 1 : 0);
    }
}

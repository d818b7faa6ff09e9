/** Statics that nobody sets before the run. */
class Defaults {
    static int number;
    static boolean flag;
    static int[] array;
}

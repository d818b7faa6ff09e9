// A.class beside this file was written with the addition kept: `iconst_2; iconst_3; iadd`.
// A Java compiler folds `2 + 3` into one constant, so what it makes of this source has no `iadd`.
public class A {
    public static void init() {
        System.out.println(2 + 3);
    }
}

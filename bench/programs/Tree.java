/** A search tree, which is walked by recursion, and whose keys are looked up. */
public class Tree {
    static final int SIZE = 400;
    private static final int KEYS = 1000;

    private final int key;
    private Tree less;
    private Tree more;

    Tree(int key) {
        this.key = key;
    }

    private void add(int other) {
        if (other < key) {
            if (less == null) {
                less = new Tree(other);
            } else {
                less.add(other);
            }
        } else if (other > key) {
            if (more == null) {
                more = new Tree(other);
            } else {
                more.add(other);
            }
        }
    }

    private static boolean has(Tree tree, int key) {
        if (tree == null) {
            return false;
        }
        return key == tree.key || has(key < tree.key ? tree.less : tree.more, key);
    }

    private static int height(Tree tree) {
        if (tree == null) {
            return 0;
        }
        int less = height(tree.less);
        int more = height(tree.more);
        return 1 + (less > more ? less : more);
    }

    public static void init() {
        Tree tree = new Tree(KEYS);
        for (int i = 1; i < KEYS; i++) {
            tree.add(i * 379 % KEYS * 2);
        }
        int found = 0;
        for (int round = 0; round < SIZE; round++) {
            for (int key = 0; key < KEYS; key++) {
                if (has(tree, key)) {
                    found++;
                }
            }
            found += height(tree);
        }
        System.out.println(found);
    }
}

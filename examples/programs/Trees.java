/** A tree of numbers and a list, made of references; what is null, and what is the same. */
public class Trees {
    private static Node root;
    private static int size;

    static class Node {
        final int key;
        Node left;
        Node right;

        Node(int key) {
            this.key = key;
        }
    }

    static class Link {
        int value;
        Link next;

        Link(int value, Link next) {
            this.value = value;
            this.next = next;
        }
    }

    private static void add(int key) {
        if (root == null) {
            root = new Node(key);
            size++;
            return;
        }
        Node at = root;
        while (true) {
            Node next = key < at.key ? at.left : at.right;
            if (key == at.key) {
                return;
            }
            if (next == null) {
                Node made = new Node(key);
                if (key < at.key) {
                    at.left = made;
                } else {
                    at.right = made;
                }
                size++;
                return;
            }
            at = next;
        }
    }

    private static int depth(Node at) {
        if (at == null) {
            return 0;
        }
        int left = depth(at.left);
        int right = depth(at.right);
        return 1 + (left > right ? left : right);
    }

    /** The keys in order, in front of a list. */
    private static Link keys(Node at, Link behind) {
        return at == null ? behind : keys(at.left, new Link(at.key, keys(at.right, behind)));
    }

    private static Link reversed(Link at) {
        Link made = null;
        while (at != null) {
            Link next = at.next;
            at.next = made;
            made = at;
            at = next;
        }
        return made;
    }

    private static int told(Link at) {
        int told = 0;
        for (; at != null; at = at.next) {
            told = told * 3 + at.value;
        }
        return told;
    }

    public static void init() {
        int key = 7;
        for (int i = 0; i < 25; i++) {
            key = (key * 37 + 11) % 101;
            add(key % 50);
        }
        System.out.println(size);
        System.out.println(depth(root));
        Link all = keys(root, null);
        System.out.println(all.value);
        System.out.println(all.next.value);
        System.out.println(told(all));
        Link last = reversed(all);
        System.out.println(last.value);
        System.out.println(all.next == null ? 1 : 0);
        System.out.println(told(last));
        Object one = last;
        System.out.println(one == last ? 1 : 0);
        System.out.println(one != root ? 1 : 0);
        System.out.println(new Object() == one ? 1 : 0);
    }

    public static void done() {
        root.left = null;
        root.right = null;
        System.out.println(root.left.key);
    }
}

class NodeArray {
    static class Node {}

    static Node[] nodes;

    static void init() {
        nodes = new Node[2];
    }
}

class NodeArrayMended {
    static class Node {
        Node next;
    }

    static Node nodes;

    static void init() {
        nodes = new Node();
        nodes.next = new Node();
    }
}

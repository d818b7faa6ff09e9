/** A ring of objects, whose fields are read and written. */
public class Fields {
    static final int SIZE = 10000000;
    static int passed;

    private Fields next;
    private int value;

    Fields(Fields next, int value) {
        this.next = next;
        this.value = value;
    }

    public static void init() {
        Fields first = new Fields(null, 1);
        Fields ring = first;
        for (int i = 2; i < 50; i++) {
            ring = new Fields(ring, i);
        }
        first.next = ring;
        for (int i = 0; i < SIZE; i++) {
            ring.value += ring.next.value;
            ring = ring.next;
            passed++;
        }
        System.out.println(ring.value + passed);
    }
}

/** Places in an array that is made anew for each number of them, which stands in the last one. */
public class Shelf {
    private static Shelf shelf;

    private int[] places = new int[2];
    private int count = 2;

    Shelf() {
        places[1] = 2;
    }

    synchronized void fit(int count) {
        places = new int[count];
        places[count - 1] = count;
        this.count = count;
    }

    synchronized int last() {
        return places[count - 1];
    }

    public static void init() {
        shelf = new Shelf();
    }

    /** The first worker reads, and the others fit the shelf for four. */
    public static void run(int number) {
        if (number == 1) {
            System.out.println(shelf.last());
        } else {
            shelf.fit(4);
        }
    }
}

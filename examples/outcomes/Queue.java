/** A queue with room for one number, by one who puts and one who takes, with `notifyAll`. */
public class Queue {
    private static final Queue queue = new Queue();

    private int item;

    synchronized void put(int n) throws InterruptedException {
        while (item != 0) {
            wait();
        }
        item = n;
        notifyAll();
    }

    synchronized int take() throws InterruptedException {
        while (item == 0) {
            wait();
        }
        int taken = item;
        item = 0;
        notifyAll();
        return taken;
    }

    /** The first worker puts 5 and 6, the second takes both. */
    public static void run(int number) throws InterruptedException {
        if (number == 1) {
            queue.put(5);
            queue.put(6);
        } else {
            System.out.println(queue.take());
            System.out.println(queue.take());
        }
    }
}

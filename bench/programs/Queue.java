/** Workers in pairs, one of which puts numbers into a queue of one place while the other takes them out, with wait and notify. */
public class Queue {
    static final int SIZE = 20000;

    private static final Queue odd = new Queue();
    private static final Queue even = new Queue();

    private int item;
    private boolean full;

    private synchronized void put(int number) throws InterruptedException {
        while (full) {
            wait();
        }
        item = number;
        full = true;
        notifyAll();
    }

    private synchronized int take() throws InterruptedException {
        while (!full) {
            wait();
        }
        full = false;
        notifyAll();
        return item;
    }

    public static void run(int number) throws InterruptedException {
        Queue queue = (number - 1 & 2) == 0 ? even : odd;
        int sum = 0;
        for (int i = 0; i < SIZE; i++) {
            if ((number & 1) == 0) {
                queue.put(i & 7);
            } else {
                sum += queue.take();
            }
        }
        System.out.println(sum);
    }
}

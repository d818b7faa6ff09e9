/** Two sections that look alike: what one of them reads is written under its lock alone, what the other reads is not. */
public class Stock {
    private static final Stock stock = new Stock(3);

    private final int price;
    private int pieces;
    private int reserved;

    Stock(int price) {
        this.price = price;
    }

    synchronized void buy(int n) {
        pieces += n;
    }

    void reserve(int n) {
        reserved += n;
    }

    int value() {
        synchronized (this) {
            return pieces * price();
        }
    }

    int free() {
        synchronized (this) {
            return pieces - reserved;
        }
    }

    private int price() {
        return price;
    }

    public static void init() {
        stock.buy(4);
        stock.reserve(1);
        System.out.println(stock.value());
        System.out.println(stock.free());
    }
}

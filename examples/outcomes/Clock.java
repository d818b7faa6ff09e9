/** A clock whose hour and minute are set under a lock, and read with the lock and without. */
public class Clock {
    private static final Clock clock = new Clock();

    private int hour = 1;
    private int minute = 59;

    synchronized void tick() {
        minute = minute + 1;
        if (minute == 60) {
            minute = 0;
            hour = hour + 1;
        }
    }

    synchronized int time() {
        return hour * 100 + minute;
    }

    int glance() {
        return hour * 100 + minute;
    }

    /** The first worker ticks, the second reads under the lock, the third without it. */
    public static void run(int number) {
        switch (number) {
            case 1: clock.tick(); break;
            case 2: System.out.println(clock.time()); break;
            default: System.out.println(clock.glance());
        }
    }

    public static void done() {
        System.out.println(clock.time());
    }
}

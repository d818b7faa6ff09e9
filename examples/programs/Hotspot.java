import java.lang.reflect.InvocationTargetException;
import java.lang.reflect.Method;

/**
 * Runs a program on the Java machine at hand as solero runs it, and tells the ends of its parts as the report does: the
 * classes are initialised in their order, then comes init, then threads with run(1) to run(n), then done.
 *
 * java -cp FOLDERS Hotspot N CLASS...
 */
public class Hotspot {
    public static void main(String[] words) throws Exception {
        int workers = Integer.parseInt(words[0]);
        String init = "returned";
        Class<?> entry = null;
        for (int i = 1; i < words.length && init.equals("returned"); i++) {
            try {
                Class<?> loaded = Class.forName(words[i]);
                entry = entry == null ? loaded : entry;
            } catch (ExceptionInInitializerError e) {
                init = uncaught(e.getCause());
            }
        }
        if (init.equals("returned")) {
            init = end(entry, "init");
        }
        String[] ends = new String[workers];
        Thread[] threads = new Thread[workers];
        boolean started = init.equals("returned");
        for (int i = 0; i < workers; i++) {
            Class<?> of = entry;
            int number = i;
            threads[i] = new Thread(() -> ends[number] = end(of, "run", number + 1));
        }
        for (int i = 0; i < workers && started; i++) {
            threads[i].start();
        }
        for (Thread thread : threads) {
            thread.join();
        }
        String done = started ? end(entry, "done") : "not run";
        System.out.println("init " + init);
        for (int i = 0; i < workers; i++) {
            System.out.println("thread " + (i + 1) + " " + (started ? ends[i] : "not run"));
        }
        System.out.println("done " + done);
    }

    /** How a method ends; one that is missing has returned. */
    private static String end(Class<?> entry, String name, Object... arguments) {
        for (Method method : entry.getDeclaredMethods()) {
            if (method.getName().equals(name) && method.getParameterCount() == arguments.length) {
                try {
                    method.setAccessible(true);
                    method.invoke(null, arguments);
                } catch (InvocationTargetException e) {
                    return uncaught(e.getCause());
                } catch (IllegalAccessException e) {
                    throw new IllegalStateException(e);
                }
            }
        }
        return "returned";
    }

    private static String uncaught(Throwable thrown) {
        return "uncaught " + thrown.getClass().getName().replace('.', '/');
    }
}

/** A static synchronized method that calls one of another class, and enters the monitor of that so. */
class ClassReads {
    static synchronized int sum() {
        return ClassPair.sum();
    }
}

class TestsClass {
    static void init() {
        Object value = new TestsClass();
        boolean own = value instanceof TestsClass;
    }
}

class TestsClassMended {
    int kind = 1;

    static void init() {
        TestsClassMended value = new TestsClassMended();
        boolean own = value.kind == 1;
    }
}

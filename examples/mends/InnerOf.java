class InnerOf {
    class Inner {}

    static void init() {
        InnerOf outer = new InnerOf();
        Inner inner = outer.new Inner();
    }
}

class InnerOfMended {
    class Inner {}

    Inner inner() {
        return new Inner();
    }

    static void init() {
        InnerOfMended outer = new InnerOfMended();
        Inner inner = outer.inner();
    }
}

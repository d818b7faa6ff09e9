class Shape {
    interface Sized {
        int size();
    }

    static class Square implements Sized {
        public int size() {
            return 4;
        }
    }

    static void init() {
        Sized sized = new Square();
        sized.size();
    }
}

class ShapeMended {
    static class Square {
        public int size() {
            return 4;
        }
    }

    static void init() {
        Square sized = new Square();
        sized.size();
    }
}

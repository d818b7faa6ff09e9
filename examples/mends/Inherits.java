class Inherits {
    static class Cell {}

    static class Full extends Cell {}

    static void init() {
        new Full();
    }
}

class InheritsMended {
    static class Cell {}

    static class Full {
        final Cell cell = new Cell();
    }

    static void init() {
        new Full();
    }
}

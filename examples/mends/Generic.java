class Generic {
    static class Box<T> {
        T value;
    }

    static class Item {}

    static void init() {
        Box<Item> box = new Box<Item>();
        box.value = new Item();
        Item item = box.value;
    }
}

class GenericMended {
    static class ItemBox {
        Item value;
    }

    static class Item {}

    static void init() {
        ItemBox box = new ItemBox();
        box.value = new Item();
        Item item = box.value;
    }
}

class OtherCatch {
    static void init() {
        try {
            int one = 1;
            one = one / one;
        } catch (IllegalStateException bad) {
        }
    }
}

class OtherCatchMended {
    static void init() {
        try {
            int one = 1;
            one = one / one;
        } catch (RuntimeException bad) {
        }
    }
}

class Lambda {
    interface Task {
        void run();
    }

    static void init() {
        Task task = () -> { };
        task.run();
    }
}

class LambdaMended {
    static class Task {
        void run() {
        }
    }

    static void init() {
        new Task().run();
    }
}

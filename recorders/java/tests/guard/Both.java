import armus.DeadlockException;

/** The sides of a deadlock, each in a thread of its own, and how many of them were refused. */
final class Both {
    interface Side {
        void run() throws Exception;
    }

    private static int refused;

    private Both() {
    }

    static synchronized void refused() {
        refused++;
    }

    static Thread thread(String name, Side side) {
        return new Thread(() -> {
            try {
                side.run();
            } catch (DeadlockException e) {
                refused();
            } catch (Exception e) {
                if (!(e.getCause() instanceof DeadlockException)) {
                    System.out.println(name + " " + e);
                }
            }
        }, name);
    }

    /** Says that all is done, if so many were refused. */
    static void end(int wanted, Thread... threads) throws InterruptedException {
        for (Thread thread : threads) {
            thread.join();
        }
        System.out.println(refused == wanted ? "end" : refused + " refused");
    }
}

import java.util.concurrent.CountDownLatch;

/** Two threads wait for each other's end; one is of a class of the program, by whose name it is called. A third waits for its own, by a reference to join. */
public class Joins {
    static class Worker extends Thread {
        Thread other;
        final CountDownLatch begun;

        Worker(CountDownLatch begun) {
            super("worker");
            this.begun = begun;
        }

        @Override
        public void run() {
            try {
                begun.await();
                other.join(0);
            } catch (armus.DeadlockException e) {
                Both.refused();
            } catch (InterruptedException e) {
                throw new RuntimeException(e);
            }
        }
    }

    public static void main(String[] words) throws Exception {
        CountDownLatch begun = new CountDownLatch(1);
        Worker worker = new Worker(begun);
        worker.other = Both.thread("other", () -> worker.join());
        Thread self = Both.thread("self", () -> join(Thread.currentThread()::join));
        Thread ended = Both.thread("ended", new Worker(begun)::join);
        ended.start();
        worker.start();
        worker.other.start();
        begun.countDown();
        self.start();
        worker.join();
        Both.end(2, worker.other, self, ended);
    }

    static void join(Both.Side side) throws Exception {
        side.run();
    }
}

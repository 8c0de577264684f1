import java.util.concurrent.CyclicBarrier;

/** A barrier of four, and three workers: main was meant to be the fourth. */
public class MissingParty {
    public static void main(String[] words) throws Exception {
        CyclicBarrier b = new CyclicBarrier(4);
        Thread[] workers = new Thread[3];
        for (int i = 0; i < 3; i++) {
            workers[i] = new Thread(() -> {
                try {
                    for (int round = 0; round < 2; round++) {
                        b.await();
                    }
                } catch (Exception e) {
                    throw new RuntimeException(e);
                }
            }, "worker-" + i);
            workers[i].start();
        }
        for (Thread worker : workers) {
            worker.join();
        }
    }
}

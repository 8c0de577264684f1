import java.util.concurrent.CyclicBarrier;

/** A barrier of two, and three threads: two of them pass, and one is left. */
public class TooManyThreads {
    public static void main(String[] words) throws Exception {
        CyclicBarrier b = new CyclicBarrier(2);
        for (int i = 0; i < 3; i++) {
            Thread worker = new Thread(() -> {
                try {
                    b.await();
                } catch (Exception e) {
                    throw new RuntimeException(e);
                }
            }, "worker-" + i);
            worker.start();
        }
    }
}

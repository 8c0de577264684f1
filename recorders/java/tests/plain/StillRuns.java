import java.util.concurrent.CyclicBarrier;

/** Main has work of its own for an hour before it comes to the barrier. */
public class StillRuns {
    public static void main(String[] words) throws Exception {
        CyclicBarrier b = new CyclicBarrier(2);
        Thread worker = new Thread(() -> {
            try {
                b.await();
            } catch (Exception e) {
                throw new RuntimeException(e);
            }
        }, "worker");
        worker.start();
        Thread.sleep(3_600_000);
        b.await();
    }
}

import java.util.concurrent.BrokenBarrierException;
import java.util.concurrent.CyclicBarrier;

/** A worker throws in its second round, and never comes to the barrier again. */
public class ExceptionPath {
    public static void main(String[] words) {
        CyclicBarrier b = new CyclicBarrier(3);
        for (int i = 0; i < 3; i++) {
            int me = i;
            Thread worker = new Thread(() -> {
                try {
                    for (int round = 0; round < 3; round++) {
                        if (me == 2 && round == 1) {
                            throw new IllegalStateException("bad input");
                        }
                        b.await();
                    }
                } catch (BrokenBarrierException | InterruptedException e) {
                    throw new RuntimeException(e);
                }
            }, "worker-" + i);
            worker.setUncaughtExceptionHandler((thread, thrown) -> { });
            worker.start();
        }
    }
}

import java.util.concurrent.CountDownLatch;
import java.util.concurrent.CyclicBarrier;
import java.util.concurrent.Phaser;

/** Comes to its end: main registers a party behind its own arrival, two threads wait at one latch, and all meet at a barrier. */
public class Ends {
    public static void main(String[] words) throws Exception {
        Phaser p = new Phaser(2);
        CountDownLatch done = new CountDownLatch(2);
        CyclicBarrier b = new CyclicBarrier(3);
        p.arrive();
        p.register();
        for (int i = 0; i < 2; i++) {
            new Thread(() -> {
                try {
                    p.arriveAndAwaitAdvance();
                    done.countDown();
                    done.await();
                    b.await();
                } catch (Exception e) {
                    throw new RuntimeException(e);
                }
            }, "worker-" + i).start();
        }
        p.awaitAdvance(0);
        done.await();
        b.await();
    }
}

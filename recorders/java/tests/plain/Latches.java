import java.util.concurrent.CountDownLatch;

/** Two watchers wait until both latches are open; each of two openers waits for the other's latch before it opens its own. */
public class Latches {
    static Thread opener(CountDownLatch first, CountDownLatch own, String mine) {
        return new Thread(() -> {
            try {
                first.await();
            } catch (InterruptedException e) {
                throw new RuntimeException(e);
            }
            own.countDown();
        }, "opener of " + mine);
    }

    public static void main(String[] words) {
        CountDownLatch one = new CountDownLatch(1);
        CountDownLatch two = new CountDownLatch(1);
        CountDownLatch open = new CountDownLatch(1);
        for (int i = 0; i < 2; i++) {
            new Thread(() -> {
                try {
                    open.await();
                    one.await();
                } catch (InterruptedException e) {
                    throw new RuntimeException(e);
                }
            }, "watcher-" + i).start();
        }
        opener(two, one, "one").start();
        opener(one, two, "two").start();
        open.countDown();
    }
}

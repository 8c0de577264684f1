import java.util.concurrent.CyclicBarrier;
import java.util.concurrent.Phaser;
import java.util.concurrent.locks.ReentrantLock;

/** What operations cost: the least of many rounds, in tenths of a nanosecond. */
public class Cost {
    private static final int ROUNDS = 60;
    private static final int TIMES = 100_000;

    interface Work {
        void run() throws Exception;
    }

    static void least(String name, Work work) throws Exception {
        long least = Long.MAX_VALUE;
        for (int round = 0; round < ROUNDS; round++) {
            long begun = System.nanoTime();
            for (int i = 0; i < TIMES; i++) {
                work.run();
            }
            least = Math.min(least, (System.nanoTime() - begun) * 10 / TIMES);
        }
        System.out.println(name + " " + least);
    }

    public static void main(String[] words) throws Exception {
        CyclicBarrier barrier = new CyclicBarrier(1);
        Phaser phaser = new Phaser(1);
        ReentrantLock lock = new ReentrantLock();
        Object monitor = new Object();
        long[] count = new long[1];
        least("barrier", barrier::await);
        least("phaser", phaser::arriveAndAwaitAdvance);
        least("lock", () -> {
            lock.lock();
            count[0]++;
            lock.unlock();
        });
        least("monitor", () -> {
            synchronized (monitor) {
                count[0]++;
            }
        });
    }
}

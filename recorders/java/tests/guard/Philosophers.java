import armus.DeadlockException;
import java.util.concurrent.atomic.AtomicInteger;
import java.util.concurrent.locks.ReentrantLock;

/** Five threads take two of five locks each, in a circle, again and again. Who is refused gives its first one back, and begins anew. */
public class Philosophers {
    private static final int MEALS = 300;

    public static void main(String[] words) throws Exception {
        ReentrantLock[] forks = new ReentrantLock[5];
        for (int i = 0; i < forks.length; i++) {
            forks[i] = new ReentrantLock();
        }
        AtomicInteger eaten = new AtomicInteger();
        Thread[] threads = new Thread[forks.length];
        for (int i = 0; i < threads.length; i++) {
            ReentrantLock first = forks[i];
            ReentrantLock second = forks[(i + 1) % forks.length];
            threads[i] = new Thread(() -> {
                for (int meals = 0; meals < MEALS; meals += eat(first, second) ? 1 : 0) {
                    Thread.yield();
                }
                eaten.addAndGet(MEALS);
            }, "philosopher-" + i);
            threads[i].start();
        }
        for (Thread thread : threads) {
            thread.join();
        }
        System.out.println(eaten.get() == MEALS * forks.length ? "end" : eaten + " meals");
    }

    static boolean eat(ReentrantLock first, ReentrantLock second) {
        first.lock();
        try {
            Thread.yield();
            second.lock();
            second.unlock();
            return true;
        } catch (DeadlockException e) {
            return false;
        } finally {
            first.unlock();
        }
    }
}

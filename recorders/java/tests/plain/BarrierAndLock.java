import java.util.concurrent.CyclicBarrier;
import java.util.concurrent.locks.ReentrantLock;

/** A thread holds a lock while it waits at a barrier of two, to which the other comes only with the lock; a server goes on. */
public class BarrierAndLock {
    public static void main(String[] words) throws Exception {
        CyclicBarrier meet = new CyclicBarrier(2);
        ReentrantLock lock = new ReentrantLock();
        new Thread(() -> {
            lock.lock();
            try {
                Thread.sleep(200);
                meet.await();
            } catch (Exception e) {
                throw new RuntimeException(e);
            } finally {
                lock.unlock();
            }
        }, "holder").start();
        Thread.sleep(100);
        lock.lock();
        lock.unlock();
        meet.await();
    }
}

import java.util.concurrent.CountDownLatch;
import java.util.concurrent.locks.Lock;
import java.util.concurrent.locks.ReentrantLock;
import java.util.concurrent.locks.ReentrantReadWriteLock;

/** Two threads take two locks in opposite order, and two others a fair lock and the lock of writers. */
public class Locks {
    public static void main(String[] words) throws Exception {
        ReentrantLock x = new ReentrantLock();
        Lock y = new ReentrantLock();
        ReentrantLock fair = new ReentrantLock(true);
        ReentrantReadWriteLock both = new ReentrantReadWriteLock();
        CountDownLatch taken = new CountDownLatch(4);
        Thread[] threads = {
            Both.thread("x-y", () -> {
                x.lock();
                try {
                    meet(taken);
                    y.lock();
                    y.unlock();
                } finally {
                    x.unlock();
                }
            }),
            Both.thread("y-x", () -> {
                y.lock();
                try {
                    meet(taken);
                    x.lock();
                    x.unlock();
                } finally {
                    y.unlock();
                }
            }),
            Both.thread("fair-read", () -> {
                fair.lock();
                try {
                    meet(taken);
                    both.readLock().lock();
                    both.readLock().unlock();
                } finally {
                    fair.unlock();
                }
            }),
            Both.thread("write-fair", () -> {
                both.writeLock().lock();
                try {
                    meet(taken);
                    fair.lockInterruptibly();
                    fair.unlock();
                } finally {
                    both.writeLock().unlock();
                }
            })};
        for (Thread thread : threads) {
            thread.start();
        }
        Both.end(2, threads);
    }

    static void meet(CountDownLatch taken) throws InterruptedException {
        taken.countDown();
        taken.await();
    }
}

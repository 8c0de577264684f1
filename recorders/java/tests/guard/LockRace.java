import armus.Members;
import java.util.Random;
import java.util.concurrent.CyclicBarrier;
import java.util.concurrent.TimeUnit;
import java.util.concurrent.locks.Condition;
import java.util.concurrent.locks.Lock;
import java.util.concurrent.locks.ReentrantLock;
import java.util.concurrent.locks.ReentrantReadWriteLock;

/** Comes to its end, and nobody is refused: eight threads take locks in rising order in all the ways there are, give them back and begin below, wait at conditions, which
 * give back a lock that is waited for, and meet. A lock that was just given back, or is just taken, must not count as held by who had it. */
public class LockRace {
    private static final int ROUNDS = 1200;
    private static final Lock[] LOCKS = new Lock[6];
    private static final ReentrantLock BOX = new ReentrantLock();
    private static final Condition CHANGED = BOX.newCondition();
    private static int full;

    public static void main(String[] words) throws Exception {
        for (int i = 0; i < LOCKS.length; i++) {
            LOCKS[i] = i % 3 == 2 ? new ReentrantReadWriteLock(i > 2).writeLock() : new ReentrantLock(i > 2);
        }
        CyclicBarrier meet = new CyclicBarrier(8);
        Thread[] threads = new Thread[8];
        for (int i = 0; i < threads.length; i++) {
            int me = i;
            threads[i] = new Thread(() -> work(me, meet), "thread-" + i);
            Members.member(threads[i], meet);
        }
        for (Thread thread : threads) {
            thread.start();
        }
        for (Thread thread : threads) {
            thread.join();
        }
        System.out.println("end");
    }

    static void work(int me, CyclicBarrier meet) {
        Random random = new Random(me);
        try {
            for (int i = 0; i < ROUNDS; i++) {
                int one = random.nextInt(LOCKS.length);
                int two = random.nextInt(LOCKS.length);
                both(LOCKS[Math.min(one, two)], LOCKS[Math.max(one, two)], random);
                if (i % 4 == 0) {
                    change(me % 2 == 0 ? 1 : -1);
                }
                if (i % 30 == 0) {
                    meet.await();
                }
            }
        } catch (Exception e) {
            System.out.println(Thread.currentThread().getName() + " " + e);
        }
    }

    static void both(Lock low, Lock high, Random random) throws InterruptedException {
        take(low, random);
        try {
            take(high, random);
            high.unlock();
            if (random.nextInt(8) == 0) {
                Thread.yield();
            }
        } finally {
            low.unlock();
        }
    }

    static void take(Lock lock, Random random) throws InterruptedException {
        int way = random.nextInt(4);
        if (way == 0) {
            lock.lockInterruptibly();
        } else if (way > 1 || !lock.tryLock(1, TimeUnit.MICROSECONDS)) {
            lock.lock();
        }
    }

    /** Half of the threads fill a box of four, and the others take from it as often. */
    static void change(int by) throws InterruptedException {
        BOX.lock();
        try {
            while (full + by < 0 || full + by > 4) {
                CHANGED.await();
            }
            full += by;
            CHANGED.signalAll();
        } finally {
            BOX.unlock();
        }
    }
}

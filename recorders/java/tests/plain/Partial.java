import java.util.concurrent.CountDownLatch;
import java.util.concurrent.ExecutorService;
import java.util.concurrent.Executors;
import java.util.concurrent.Future;
import java.util.concurrent.atomic.AtomicReference;
import java.util.concurrent.locks.ReentrantLock;

/** Two servers go on for ever. Meanwhile two threads take two locks in opposite order, two wait for each other's monitor, two for each other's end, and two for each
 * other's future. */
public class Partial {
    interface Work {
        void run() throws Exception;
    }

    static Thread start(String name, Work work) {
        Thread thread = new Thread(() -> {
            try {
                work.run();
            } catch (Exception e) {
                throw new RuntimeException(e);
            }
        }, name);
        thread.start();
        return thread;
    }

    public static void main(String[] words) throws Exception {
        ReentrantLock x = new ReentrantLock();
        ReentrantLock y = new ReentrantLock();
        ReentrantLock queue = new ReentrantLock();
        Object left = new Object();
        Object right = new Object();
        for (int i = 0; i < 2; i++) {
            start("server-" + i, () -> {
                while (true) {
                    queue.lock();
                    try {
                        Thread.sleep(1);
                    } finally {
                        queue.unlock();
                    }
                }
            });
        }
        CountDownLatch locked = new CountDownLatch(2);
        start("lock-1", () -> {
            x.lock();
            locked.countDown();
            locked.await();
            y.lock();
        });
        start("lock-2", () -> {
            y.lock();
            locked.countDown();
            locked.await();
            x.lock();
        });
        CountDownLatch entered = new CountDownLatch(2);
        start("monitor-1", () -> {
            synchronized (left) {
                entered.countDown();
                entered.await();
                synchronized (right) {
                    entered.countDown();
                }
            }
        });
        start("monitor-2", () -> {
            synchronized (right) {
                entered.countDown();
                entered.await();
                synchronized (left) {
                    entered.countDown();
                }
            }
        });
        AtomicReference<Thread> second = new AtomicReference<>();
        CountDownLatch begun = new CountDownLatch(1);
        Thread first = start("joins-1", () -> {
            begun.await();
            second.get().join();
        });
        second.set(start("joins-2", () -> first.join()));
        begun.countDown();
        ExecutorService pool = Executors.newFixedThreadPool(2);
        AtomicReference<Future<?>> answer = new AtomicReference<>();
        CountDownLatch asked = new CountDownLatch(1);
        Future<?> question = pool.submit(() -> {
            asked.await();
            return answer.get().get();
        });
        answer.set(pool.submit(() -> question.get()));
        asked.countDown();
    }
}

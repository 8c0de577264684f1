import java.util.Random;
import java.util.concurrent.CyclicBarrier;
import java.util.concurrent.locks.ReentrantLock;

/** Eight threads take two of six locks and of six monitors in rising order, and meet: no deadlock. */
public class Busy {
    public static void main(String[] words) throws Exception {
        ReentrantLock[] locks = new ReentrantLock[6];
        Object[] monitors = new Object[6];
        for (int i = 0; i < 6; i++) {
            locks[i] = new ReentrantLock();
            monitors[i] = new Object();
        }
        CyclicBarrier meet = new CyclicBarrier(8);
        Thread[] workers = new Thread[8];
        for (int k = 0; k < 8; k++) {
            int me = k;
            workers[k] = new Thread(() -> {
                Random random = new Random(me);
                try {
                    for (int i = 0; i < 1500; i++) {
                        int one = random.nextInt(6);
                        int two = random.nextInt(6);
                        work(locks, monitors, Math.min(one, two), Math.max(one, two), random);
                        if (i % 50 == 0) {
                            meet.await();
                        }
                    }
                } catch (Exception e) {
                    throw new RuntimeException(e);
                }
            }, "worker-" + k);
            workers[k].start();
        }
        for (Thread worker : workers) {
            worker.join();
        }
        System.out.println("end");
    }

    static void work(ReentrantLock[] locks, Object[] monitors, int low, int high, Random random) throws InterruptedException {
        locks[low].lock();
        try {
            locks[high].lock();
            try {
                if (random.nextInt(20) == 0) {
                    Thread.sleep(1);
                }
            } finally {
                locks[high].unlock();
            }
        } finally {
            locks[low].unlock();
        }
        synchronized (monitors[low]) {
            synchronized (monitors[high]) {
                if (random.nextInt(40) == 0) {
                    Thread.sleep(1);
                }
            }
        }
    }
}

import armus.Members;
import java.util.concurrent.CyclicBarrier;
import java.util.concurrent.ExecutorService;
import java.util.concurrent.Executors;
import java.util.concurrent.TimeUnit;
import java.util.concurrent.atomic.AtomicInteger;

/** Comes to its end, and nobody is refused: two hundred threads meet, others of the same names begin as soon as they have ended, and a thread waits under an interrupt. */
public class Threads {
    public static void main(String[] words) throws Exception {
        AtomicInteger count = new AtomicInteger();
        for (int turn = 0; turn < 5; turn++) {
            CyclicBarrier meet = new CyclicBarrier(200);
            Thread[] threads = new Thread[200];
            for (int i = 0; i < threads.length; i++) {
                threads[i] = new Thread(null, () -> {
                    meet(meet);
                    count.incrementAndGet();
                    meet(meet);
                }, "thread-" + i % 50, 65536);
                Members.member(threads[i], meet);
                threads[i].start();
            }
            for (Thread thread : threads) {
                thread.join();
            }
        }
        System.out.println(count);
        Thread sleeper = Both.thread("sleeper", () -> Thread.sleep(200));
        sleeper.start();
        Thread.currentThread().interrupt();
        try {
            sleeper.join();
        } catch (InterruptedException e) {
            sleeper.join();
        }
        ExecutorService pool = Executors.newCachedThreadPool();
        pool.submit(count::incrementAndGet).get();
        pool.shutdown();
        System.out.println(pool.awaitTermination(10, TimeUnit.SECONDS) ? "end" : "it goes on");
    }

    static void meet(CyclicBarrier meet) {
        try {
            meet.await();
        } catch (Exception e) {
            System.out.println(e);
        }
    }
}

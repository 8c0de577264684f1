import java.util.concurrent.CyclicBarrier;
import java.util.concurrent.atomic.AtomicInteger;

/** Comes to its end: a thousand threads begin, meet and end, and then two thousand one behind the other. */
public class ManyThreads {
    public static void main(String[] words) throws Exception {
        CyclicBarrier met = new CyclicBarrier(1000);
        AtomicInteger count = new AtomicInteger();
        Thread[] threads = new Thread[1000];
        for (int i = 0; i < threads.length; i++) {
            threads[i] = new Thread(null, () -> meet(met), "meets-" + i, 65536);
            threads[i].start();
        }
        for (Thread thread : threads) {
            thread.join();
        }
        for (int i = 0; i < 2000; i++) {
            Thread thread = new Thread(null, count::incrementAndGet, "counts", 65536);
            thread.start();
            thread.join();
        }
        System.out.println(count);
    }

    static void meet(CyclicBarrier met) {
        try {
            met.await();
        } catch (Exception e) {
            throw new RuntimeException(e);
        }
    }
}

import java.util.concurrent.CompletableFuture;
import java.util.concurrent.CountDownLatch;
import java.util.concurrent.CyclicBarrier;
import java.util.concurrent.ExecutorService;
import java.util.concurrent.Executors;
import java.util.concurrent.Future;
import java.util.concurrent.Phaser;

/** Comes to its end, and nobody is refused, though threads wait crosswise for a while: nobody has said who has to come, and somebody else does. */
public class Unknown {
    public static void main(String[] words) throws Exception {
        CyclicBarrier left = new CyclicBarrier(2);
        CyclicBarrier right = new CyclicBarrier(2);
        Phaser phaser = new Phaser(2);
        CountDownLatch latch = new CountDownLatch(1);
        CompletableFuture<String> word = new CompletableFuture<>();
        Thread[] threads = {
            Both.thread("left", () -> {
                left.await();
                right.await();
            }),
            Both.thread("right", () -> {
                right.await();
                left.await();
            }),
            Both.thread("phaser", () -> {
                phaser.arriveAndAwaitAdvance();
                latch.countDown();
            }),
            Both.thread("latch", () -> {
                latch.await();
                word.complete("word");
            }),
            Both.thread("word", () -> System.out.println(word.get()))};
        for (Thread thread : threads) {
            thread.start();
        }
        ExecutorService pool = Executors.newFixedThreadPool(1);
        Future<?> helps = pool.submit(() -> {
            Thread.sleep(200);
            right.await();
            right.await();
            phaser.arrive();
            return null;
        });
        helps.get();
        pool.shutdown();
        Both.end(0, threads);
    }
}

import java.util.concurrent.Callable;
import java.util.concurrent.CountDownLatch;
import java.util.concurrent.ExecutionException;
import java.util.concurrent.ExecutorService;
import java.util.concurrent.Executors;
import java.util.concurrent.Future;
import java.util.concurrent.atomic.AtomicReference;

/** Two tasks of a pool wait for each other's result; main waits for both. */
public class Futures {
    public static void main(String[] words) throws Exception {
        ExecutorService pool = Executors.newFixedThreadPool(2);
        AtomicReference<Future<String>> second = new AtomicReference<>();
        CountDownLatch asked = new CountDownLatch(1);
        Callable<String> one = () -> {
            asked.await();
            return second.get().get();
        };
        Future<String> first = pool.submit(one);
        second.set(pool.submit(() -> first.get()));
        asked.countDown();
        int refused = 0;
        for (Future<String> future : java.util.Arrays.asList(first, second.get())) {
            try {
                future.get();
            } catch (ExecutionException e) {
                refused += innermost(e) instanceof armus.DeadlockException ? 1 : 0;
            }
        }
        pool.shutdown();
        System.out.println(refused + " of 2 end by the same exception");
        System.out.println(refused == 2 ? "end" : "otherwise");
    }

    static Throwable innermost(Throwable e) {
        return e.getCause() == null ? e : innermost(e.getCause());
    }
}

import java.util.concurrent.Callable;
import java.util.concurrent.ExecutorService;
import java.util.concurrent.Executors;
import java.util.concurrent.Future;

/** Each task of a pool of two waits for another one, which no thread is left to run. */
public class PoolTooSmall {
    public static void main(String[] words) throws Exception {
        ExecutorService pool = Executors.newFixedThreadPool(2);
        Callable<Integer> outer = () -> {
            Future<Integer> inner = pool.submit(() -> 1);
            Thread.sleep(100);
            return inner.get();
        };
        Future<Integer> one = pool.submit(outer);
        Future<Integer> two = pool.submit(outer);
        System.out.println(one.get() + two.get());
    }
}

import java.util.concurrent.CyclicBarrier;
import java.util.concurrent.ExecutorService;
import java.util.concurrent.Executors;
import java.util.concurrent.Future;

/** Main asks for the result of a task before it comes to the barrier at which the task waits for it. */
public class BarrierAndFuture {
    public static void main(String[] words) throws Exception {
        CyclicBarrier meet = new CyclicBarrier(2);
        ExecutorService pool = Executors.newFixedThreadPool(1);
        Future<Integer> result = pool.submit(() -> meet.await());
        System.out.println(result.get());
        meet.await();
    }
}

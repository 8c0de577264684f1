import java.util.concurrent.BrokenBarrierException;
import java.util.concurrent.CountDownLatch;
import java.util.concurrent.CyclicBarrier;
import java.util.concurrent.TimeUnit;
import java.util.concurrent.TimeoutException;

/** Comes to its end: two threads wait crosswise with a limit, a third comes late to a barrier, a fourth is interrupted, and a latch is polled. */
public class Timed {
    public static void main(String[] words) throws Exception {
        CyclicBarrier left = new CyclicBarrier(2);
        CyclicBarrier right = new CyclicBarrier(2);
        CyclicBarrier late = new CyclicBarrier(2);
        CountDownLatch polled = new CountDownLatch(1);
        Thread one = new Thread(() -> cross(left));
        Thread two = new Thread(() -> cross(right));
        Thread waits = new Thread(() -> {
            try {
                late.await();
            } catch (Exception e) {
                throw new RuntimeException(e);
            }
        });
        Thread interrupted = new Thread(() -> {
            try {
                new CyclicBarrier(2).await();
            } catch (InterruptedException e) {
                System.out.println("interrupted");
            } catch (BrokenBarrierException e) {
                throw new RuntimeException(e);
            }
        });
        for (Thread thread : new Thread[] {one, two, waits, interrupted}) {
            thread.start();
        }
        while (!polled.await(100, TimeUnit.MILLISECONDS)) {
            if (!one.isAlive() && !two.isAlive()) {
                polled.countDown();
            }
        }
        interrupted.interrupt();
        late.await();
        for (Thread thread : new Thread[] {waits, interrupted}) {
            thread.join();
        }
        System.out.println("end");
    }

    static void cross(CyclicBarrier barrier) {
        try {
            barrier.await(1, TimeUnit.SECONDS);
        } catch (TimeoutException | BrokenBarrierException | InterruptedException e) {
            return;
        }
    }
}

import java.util.concurrent.CountDownLatch;
import java.util.concurrent.SynchronousQueue;

/** Comes to its end: main waits for virtual threads that sleep, compute, wait for one another, and hold a monitor while they sleep. Java has them from 21 on. */
public class VirtualThreads {
    private static volatile long sum;

    private interface Work {
        void run() throws Exception;
    }

    public static void main(String[] words) throws Exception {
        CountDownLatch done = new CountDownLatch(6);
        SynchronousQueue<Integer> queue = new SynchronousQueue<>();
        Object monitor = new Object();
        start(done, () -> Thread.sleep(1500));
        start(done, VirtualThreads::computes);
        start(done, () -> queue.put(1));
        start(done, () -> {
            Thread.sleep(1000);
            queue.take();
        });
        for (int i = 0; i < 2; i++) {
            start(done, () -> {
                synchronized (monitor) {
                    Thread.sleep(700);
                }
            });
        }
        done.await();
        System.out.println("end");
    }

    private static void computes() {
        long end = System.nanoTime() + 1_500_000_000L;
        while (System.nanoTime() < end) {
            sum = sum * 31 + 7;
        }
    }

    /** By its name, so that older versions can build this, and run it without such threads. */
    private static void start(CountDownLatch done, Work work) throws Exception {
        Runnable whole = () -> {
            try {
                work.run();
            } catch (Exception e) {
                throw new RuntimeException(e);
            }
            done.countDown();
        };
        try {
            Thread.class.getMethod("startVirtualThread", Runnable.class).invoke(null, whole);
        } catch (NoSuchMethodException e) {
            new Thread(whole).start();
        }
    }
}

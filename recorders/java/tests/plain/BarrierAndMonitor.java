import java.util.concurrent.CyclicBarrier;

/** One thread comes to the barrier with a monitor that the other one needs before it comes there. */
public class BarrierAndMonitor {
    public static void main(String[] words) throws Exception {
        CyclicBarrier meet = new CyclicBarrier(2);
        Object account = new Object();
        new Thread(() -> {
            synchronized (account) {
                await(meet);
            }
        }, "holder").start();
        while (meet.getNumberWaiting() == 0) Thread.yield();
        new Thread(() -> {
            synchronized (account) {
                await(meet);
            }
        }, "needer").start();
    }

    static void await(CyclicBarrier barrier) {
        try {
            barrier.await();
        } catch (Exception e) {
            throw new RuntimeException(e);
        }
    }
}

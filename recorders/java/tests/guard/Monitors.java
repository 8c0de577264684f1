import java.util.concurrent.CountDownLatch;

/** A deadlock that is not refused: two threads want each other's monitor. The guard does not ask for `synchronized`, so both stand there as without it, and main finds
 * them so; armus-run without --guard tells such a deadlock. */
public class Monitors {
    public static void main(String[] words) throws Exception {
        Object left = new Object();
        Object right = new Object();
        CountDownLatch taken = new CountDownLatch(2);
        Thread one = thread("one", left, right, taken);
        Thread two = thread("two", right, left, taken);
        while (one.getState() != Thread.State.BLOCKED || two.getState() != Thread.State.BLOCKED) {
            Thread.sleep(10);
        }
        one.join(500);
        System.out.println(one.getState() + " " + two.getState());
        System.out.println("end");
    }

    static Thread thread(String name, Object first, Object second, CountDownLatch taken) {
        Thread thread = new Thread(() -> {
            synchronized (first) {
                taken.countDown();
                while (taken.getCount() > 0) {
                    Thread.yield();
                }
                synchronized (second) {
                    System.out.println(name + " has both");
                }
            }
        }, name);
        thread.setDaemon(true);
        thread.start();
        return thread;
    }
}

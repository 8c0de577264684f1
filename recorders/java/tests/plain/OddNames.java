import java.util.concurrent.CountDownLatch;

/** Threads that have the names of the machine's own, or one like those of the recorder: each ends a wait of main, for which no other thread is left. */
public class OddNames {
    public static void main(String[] words) throws InterruptedException {
        for (String name : new String[] {"Finalizer", "Service Thread", "DestroyJavaVM", "?any-thread", "?CountDownLatch-1"}) {
            CountDownLatch latch = new CountDownLatch(1);
            new Thread(() -> {
                try {
                    Thread.sleep(400);
                } catch (InterruptedException e) {
                    return;
                }
                latch.countDown();
            }, name).start();
            latch.await();
        }
        System.out.println("end");
    }
}

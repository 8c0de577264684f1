import java.util.concurrent.CountDownLatch;

/** A latch of two: one worker counts it down, and the other returns before it does. */
public class ForgottenCount {
    public static void main(String[] words) throws Exception {
        CountDownLatch done = new CountDownLatch(2);
        for (int i = 0; i < 2; i++) {
            int me = i;
            new Thread(() -> {
                if (me == 1) {
                    return;
                }
                done.countDown();
            }, "worker-" + i).start();
        }
        done.await();
    }
}

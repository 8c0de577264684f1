import java.util.concurrent.CountDownLatch;

/** A service: main waits until a hook of the program's end lets it go. Nothing of it is stuck, since a signal from outside may end it. */
public class Served {
    public static void main(String[] words) throws Exception {
        CountDownLatch stop = new CountDownLatch(1);
        CountDownLatch done = new CountDownLatch(1);
        Runtime.getRuntime().addShutdownHook(new Thread(() -> {
            stop.countDown();
            try {
                done.await();
            } catch (InterruptedException e) {
                return;
            }
        }, "stop"));
        stop.await();
        System.out.println("stopped");
        done.countDown();
    }
}

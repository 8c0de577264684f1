import java.util.concurrent.Phaser;

/** A helper is registered behind two rounds of two workers, meets them once, and ends without leaving. */
public class JoinsLater {
    public static void main(String[] words) throws Exception {
        Phaser p = new Phaser(2);
        for (int i = 0; i < 2; i++) {
            int me = i;
            new Thread(() -> {
                p.arriveAndAwaitAdvance();
                p.arriveAndAwaitAdvance();
                if (me == 0) {
                    p.register();
                    new Thread(() -> p.arriveAndAwaitAdvance(), "helper").start();
                }
                p.arriveAndAwaitAdvance();
                p.arriveAndAwaitAdvance();
            }, "worker-" + i).start();
        }
    }
}

import java.util.concurrent.Phaser;

/** Main leaves a phaser of two and waits for the turn in which it left; the other party is another phaser's, which main should have come to. */
public class LeavesAndWatches {
    public static void main(String[] words) {
        Phaser p = new Phaser(2);
        Phaser q = new Phaser(2);
        new Thread(() -> {
            q.arriveAndAwaitAdvance();
            p.arrive();
        }, "other").start();
        p.awaitAdvance(p.arriveAndDeregister());
        q.arrive();
    }
}

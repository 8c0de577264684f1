import java.util.concurrent.Phaser;

/** Main is a party of a phaser's parent, and waits first for a worker that waits at the phaser for main's arrival. */
public class PhaserWithParent {
    public static void main(String[] words) throws Exception {
        Phaser root = new Phaser(1);
        Phaser part = new Phaser(root, 1);
        Thread worker = new Thread(() -> part.arriveAndAwaitAdvance(), "worker");
        worker.start();
        worker.join();
        root.arriveAndAwaitAdvance();
    }
}

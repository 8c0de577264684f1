import java.util.concurrent.Phaser;

/** Main is a party of the phaser of its workers, at which it never arrives. */
public class Averaging {
    public static void main(String[] words) {
        Phaser pc = new Phaser(1);
        Phaser pb = new Phaser(1);
        for (int i = 0; i < 3; i++) {
            pc.register();
            pb.register();
            new Thread(() -> {
                for (int round = 0; round < 4; round++) {
                    pc.arriveAndAwaitAdvance();
                }
                pc.arriveAndDeregister();
                pb.arriveAndDeregister();
            }, "worker-" + i).start();
        }
        pb.arriveAndAwaitAdvance();
    }
}

import java.util.concurrent.Phaser;

/** A worker gives up in its third round, and does not leave the phaser. */
public class ForgottenLeave {
    public static void main(String[] words) {
        Phaser ph = new Phaser(1);
        for (int i = 0; i < 3; i++) {
            int me = i;
            ph.register();
            new Thread(() -> {
                for (int round = 0; round < 4; round++) {
                    if (me == 1 && round == 2) {
                        return;
                    }
                    ph.arriveAndAwaitAdvance();
                }
                ph.arriveAndDeregister();
            }, "worker-" + i).start();
        }
        for (int round = 0; round < 4; round++) {
            ph.arriveAndAwaitAdvance();
        }
        ph.arriveAndDeregister();
    }
}

import java.util.concurrent.Phaser;

/** Main arrives twice in one turn, which Java takes for the two parties; the other thread waits in the next one. */
public class ArrivesTwice {
    public static void main(String[] words) throws Exception {
        Phaser p = new Phaser(2);
        p.arrive();
        p.arrive();
        Thread other = new Thread(() -> p.arriveAndAwaitAdvance(), "other");
        other.start();
        other.join();
    }
}

import armus.DeadlockException;
import armus.Members;
import java.util.concurrent.Phaser;

/** Main is a party of the phaser of its workers, at which it never arrives. Its wait is refused; it leaves that phaser, and the workers go on. */
public class Averaging {
    public static void main(String[] words) throws Exception {
        Phaser pc = new Phaser(1);
        Phaser pb = new Phaser(1);
        Members.member(pc, pb);
        Thread[] workers = new Thread[3];
        for (int i = 0; i < workers.length; i++) {
            pc.register();
            pb.register();
            workers[i] = new Thread(() -> {
                for (int round = 0; round < 4; round++) {
                    pc.arriveAndAwaitAdvance();
                }
                pc.arriveAndDeregister();
                pb.arriveAndDeregister();
            }, "worker-" + i);
            Members.member(workers[i], pc, pb);
            workers[i].start();
        }
        Thread.sleep(1000);
        try {
            pb.arriveAndAwaitAdvance();
        } catch (DeadlockException e) {
            System.out.println("line " + e.getStackTrace()[0].getLineNumber() + ": " + e.getMessage());
            pc.arriveAndDeregister();
        }
        for (Thread worker : workers) {
            worker.join();
        }
        System.out.println("end");
    }
}

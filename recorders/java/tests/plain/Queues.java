import java.util.concurrent.ArrayBlockingQueue;
import java.util.concurrent.BlockingQueue;

/** Each of two threads takes from the queue into which the other one puts only then. */
public class Queues {
    public static void main(String[] words) throws Exception {
        BlockingQueue<Integer> asked = new ArrayBlockingQueue<>(1);
        BlockingQueue<Integer> answered = new ArrayBlockingQueue<>(1);
        new Thread(() -> pass(asked, answered), "server").start();
        pass(answered, asked);
    }

    static void pass(BlockingQueue<Integer> from, BlockingQueue<Integer> to) {
        try {
            to.put(from.take());
        } catch (InterruptedException e) {
            throw new RuntimeException(e);
        }
    }
}

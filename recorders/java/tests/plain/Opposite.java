import java.util.concurrent.CyclicBarrier;

/** Two barriers, met in opposite order. */
public class Opposite {
    public static void main(String[] words) throws Exception {
        CyclicBarrier left = new CyclicBarrier(2);
        CyclicBarrier right = new CyclicBarrier(2);
        Thread other = new Thread(() -> {
            try {
                right.await();
                left.await();
            } catch (Exception e) {
                throw new RuntimeException(e);
            }
        }, "other");
        other.start();
        left.await();
        right.await();
        other.join();
    }
}

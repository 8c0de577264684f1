import java.util.concurrent.CyclicBarrier;

/** Two workers meet a thousand times, and then one of them goes once more. */
public class ManyRounds {
    public static void main(String[] words) {
        CyclicBarrier b = new CyclicBarrier(2);
        for (int i = 0; i < 2; i++) {
            int rounds = 1000 + i;
            new Thread(() -> {
                try {
                    for (int round = 0; round < rounds; round++) {
                        b.await();
                    }
                } catch (Exception e) {
                    throw new RuntimeException(e);
                }
            }, "worker-" + i).start();
        }
    }
}

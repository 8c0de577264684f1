import java.util.concurrent.CyclicBarrier;

/** Starts a child, and is ended by a signal from it while a thread waits for main. */
public class Killed {
    public static void main(String[] words) throws Exception {
        CyclicBarrier met = new CyclicBarrier(2);
        new Thread(() -> {
            try {
                met.await();
            } catch (Exception e) {
                throw new RuntimeException(e);
            }
        }).start();
        Thread.sleep(400);
        System.out.println(new ProcessBuilder("sh", "-c", "exit 3").inheritIO().start().waitFor());
        new ProcessBuilder("sh", "-c", "kill -9 $PPID").inheritIO().start().waitFor();
        Thread.sleep(60_000);
    }
}

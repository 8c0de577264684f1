import armus.Members;
import java.util.concurrent.CyclicBarrier;

/** Comes to its end: three threads meet again and again, of which one comes late each time. */
public class Late {
    public static void main(String[] words) throws Exception {
        CyclicBarrier meet = new CyclicBarrier(3);
        Thread[] threads = new Thread[3];
        for (int i = 0; i < threads.length; i++) {
            int me = i;
            threads[i] = Both.thread("thread-" + i, () -> {
                for (int k = 0; k < 40; k++) {
                    Thread.sleep(20 * me);
                    meet.await();
                }
            });
            Members.member(threads[i], meet);
            threads[i].start();
        }
        Both.end(0, threads);
    }
}

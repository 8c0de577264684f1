package armus;

import java.util.Arrays;
import java.util.concurrent.FutureTask;

/** Asks for a wait again and again, as a call that joins a thread would, and writes in tenths of a microsecond the least time and the middle one: of a question with its answer,
 * and of one whose answer need not be waited for, since nobody is known who has to act. */
public final class AnswerTime {
    private static final int TIMES = 5000;

    private AnswerTime() {
    }

    public static void main(String[] words) throws Exception {
        Thread other = new Thread(() -> {
            try {
                Thread.sleep(60_000);
            } catch (InterruptedException e) {
                return;
            }
        });
        other.start();
        measure(other);
        measure(new FutureTask<>(() -> null));
        other.interrupt();
    }

    static void measure(Object awaited) {
        long[] took = new long[TIMES];
        for (int i = 0; i < took.length; i++) {
            long begun = System.nanoTime();
            Wait wait = Recorder.on.await(awaited, true);
            took[i] = System.nanoTime() - begun;
            wait.over();
        }
        Arrays.sort(took);
        System.out.println(took[0] / 100 + " " + took[TIMES / 2] / 100);
    }
}

import java.util.Random;
import java.util.concurrent.CountDownLatch;
import java.util.concurrent.CyclicBarrier;
import java.util.concurrent.Phaser;
import java.util.concurrent.Semaphore;
import java.util.concurrent.locks.ReentrantLock;

/** A program that a number decides: threads that do what it says at barriers, phasers, latches, locks, monitors and a semaphore. Each says when it has ended. */
public class AnyProgram {
    private final CyclicBarrier[] b = new CyclicBarrier[2];
    private final Phaser[] p = new Phaser[2];
    private final CountDownLatch[] l = new CountDownLatch[2];
    private final ReentrantLock[] locks = {new ReentrantLock(), new ReentrantLock()};
    private final Object[] monitors = {new Object(), new Object()};
    private final Semaphore free = new Semaphore(1);

    public static void main(String[] words) throws Exception {
        Random random = new Random(Long.parseLong(words[0]));
        AnyProgram own = new AnyProgram();
        for (int i = 0; i < 2; i++) {
            own.b[i] = new CyclicBarrier(1 + random.nextInt(3));
            own.p[i] = new Phaser(1 + random.nextInt(3));
            own.l[i] = new CountDownLatch(1 + random.nextInt(2));
        }
        Thread[] threads = new Thread[2 + random.nextInt(4)];
        for (int i = 0; i < threads.length; i++) {
            int[] verbs = random.ints(1 + random.nextInt(4), 0, 18).toArray();
            int[] at = random.ints(verbs.length, 0, 2).toArray();
            int[] pauses = random.ints(verbs.length, 0, 12).toArray();
            String name = "worker-" + (char) ('a' + i);
            threads[i] = new Thread(() -> {
                try {
                    own.act(verbs, at, pauses, 0);
                } catch (IllegalStateException e) {
                    // a phaser allows no more arrivals than parties
                } catch (Exception e) {
                    throw new RuntimeException(e);
                }
                System.out.println(name + " ended");
            }, name);
        }
        for (Thread thread : threads) {
            System.out.println(thread.getName() + " begins");
            thread.start();
        }
        for (Thread thread : threads) {
            thread.join();
        }
    }

    /** What a thread does from this step on. A monitor is held until its last step; a lock may be held for ever. */
    private void act(int[] verbs, int[] at, int[] pauses, int step) throws Exception {
        if (step == verbs.length) {
            return;
        }
        Thread.sleep(pauses[step]);
        int k = at[step];
        if (verbs[step] == 0) {
            synchronized (monitors[k]) {
                act(verbs, at, pauses, step + 1);
            }
            return;
        }
        once(verbs[step], k);
        act(verbs, at, pauses, step + 1);
    }

    private void once(int verb, int k) throws Exception {
        switch (verb) {
            case 1:
            case 2:
            case 3:
                b[k].await();
                break;
            case 4:
                p[k].register();
                break;
            case 5:
                p[k].arrive();
                break;
            case 6:
            case 7:
                p[k].arriveAndAwaitAdvance();
                break;
            case 8:
                p[k].arriveAndDeregister();
                break;
            case 9:
                p[k].awaitAdvance(p[k].getPhase());
                break;
            case 10:
                l[k].countDown();
                break;
            case 11:
                l[k].await();
                break;
            case 12:
            case 13:
                locks[k].lock();
                break;
            case 14:
                free.acquire();
                break;
            default:
                free.release();
                break;
        }
    }
}

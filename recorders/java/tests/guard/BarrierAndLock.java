import armus.Members;
import java.util.concurrent.BrokenBarrierException;
import java.util.concurrent.CyclicBarrier;
import java.util.concurrent.locks.ReentrantLock;

/** A thread holds a lock while it waits at a barrier of two, to which the other comes only with the lock. Either of them may be the one who is refused. */
public class BarrierAndLock {
    public static void main(String[] words) throws Exception {
        CyclicBarrier meet = new CyclicBarrier(2);
        ReentrantLock lock = new ReentrantLock();
        CyclicBarrier begun = new CyclicBarrier(2);
        Thread holder = Both.thread("holder", () -> {
            lock.lock();
            try {
                begun.await();
                meet.await();
            } catch (BrokenBarrierException e) {
                System.out.println("holder leaves");
            } catch (armus.DeadlockException e) {
                System.out.println("holder leaves");
                throw e;
            } finally {
                lock.unlock();
            }
        });
        Thread needer = Both.thread("needer", () -> {
            begun.await();
            try {
                lock.lock();
                lock.unlock();
                meet.await();
            } catch (BrokenBarrierException e) {
                System.out.println("needer leaves");
            } catch (armus.DeadlockException e) {
                System.out.println("needer comes without the lock");
                Both.refused();
                meet.await();
            }
        });
        Members.member(holder, meet);
        Members.member(needer, meet);
        holder.start();
        needer.start();
        Both.end(1, holder, needer);
    }
}

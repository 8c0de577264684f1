package armus;

import java.util.concurrent.BrokenBarrierException;
import java.util.concurrent.CompletableFuture;
import java.util.concurrent.CountDownLatch;
import java.util.concurrent.CyclicBarrier;
import java.util.concurrent.ExecutionException;
import java.util.concurrent.Future;
import java.util.concurrent.FutureTask;
import java.util.concurrent.Phaser;
import java.util.concurrent.RunnableFuture;
import java.util.concurrent.RunnableScheduledFuture;
import java.util.concurrent.ScheduledFuture;
import java.util.concurrent.TimeUnit;
import java.util.concurrent.TimeoutException;
import java.util.concurrent.locks.Lock;
import java.util.concurrent.locks.ReentrantLock;
import java.util.concurrent.locks.ReentrantReadWriteLock;

/** What the listed calls of a program become: the same call, told before, and asked for where it may wait without a limit. */
public final class Operations {
    private Operations() {
    }

    // ---- the recorder; what fails there does not reach the program

    static void debug(Throwable e) {
        try {
            if (System.getenv("ARMUS_DEBUG") != null) {
                e.printStackTrace();
            }
        } catch (SecurityException refused) {
            return;                                            // the program lets nobody read the environment
        }
    }

    private static void failed(Recorder recorder, Throwable e) {
        debug(e);
        recorder.off("the recorder failed");
    }

    private static Wait meet(Object meeting, boolean arrives, boolean mayBeInterrupted) {
        Recorder recorder = Recorder.on;
        try {
            return recorder == null || !recorder.hasMeetings() ? null : recorder.meet(meeting, arrives, mayBeInterrupted);
        } catch (RuntimeException | Error e) {
            failed(recorder, e);
            return null;
        }
    }

    static void member(Thread thread, Object meeting) {
        Recorder recorder = Recorder.on;
        try {
            if (recorder != null) {
                recorder.member(thread, meeting);
            }
        } catch (RuntimeException | Error e) {
            failed(recorder, e);
        }
    }

    private static Wait awaitTurn(Phaser phaser, int turn, boolean mayBeInterrupted) {
        Recorder recorder = Recorder.on;
        try {
            return recorder == null || !recorder.hasMeetings() || turn < 0 ? null : recorder.awaitTurn(phaser, turn, mayBeInterrupted);
        } catch (RuntimeException | Error e) {
            failed(recorder, e);
            return null;
        }
    }

    private static void arrive(Object meeting, boolean leaves) {
        Recorder recorder = Recorder.on;
        try {
            if (recorder != null && recorder.hasMeetings()) {
                if (leaves) {
                    recorder.leave(meeting);
                } else {
                    recorder.arrive(meeting);
                }
            }
        } catch (RuntimeException | Error e) {
            failed(recorder, e);
        }
    }

    private static Wait ask(Object owned, boolean mayBeInterrupted) {
        Recorder recorder = Recorder.on;
        try {
            return recorder == null || owned instanceof FutureTask && recorder.isDone((FutureTask<?>) owned) ? null : recorder.await(owned, mayBeInterrupted);
        } catch (RuntimeException | Error e) {
            failed(recorder, e);
            return null;
        }
    }

    /** Such a call throws at once where it may be interrupted, and does not wait. */
    private static boolean isInterrupted() {
        return Thread.currentThread().isInterrupted();
    }

    private static void over(Wait wait) {
        if (wait != null) {
            wait.over();
        }
    }

    private static void check(Wait wait) {
        if (wait != null && wait.isRefused()) {
            throw wait.refusal();
        }
    }

    // ---- barriers, phasers, latches

    public static int await(CyclicBarrier barrier) throws InterruptedException, BrokenBarrierException {
        Wait wait = isInterrupted() ? null : meet(barrier, true, true);
        if (wait != null && wait.isRefused()) {
            return broken(barrier, wait);
        }
        try {
            return barrier.await();
        } finally {
            over(wait);
        }
    }

    /** Breaks the barrier for those who wait there, unless all have come meanwhile. */
    private static int broken(CyclicBarrier barrier, Wait refused) {
        try {
            return barrier.await(0, TimeUnit.NANOSECONDS);
        } catch (InterruptedException e) {
            Thread.currentThread().interrupt();
        } catch (BrokenBarrierException | TimeoutException e) {
            throw refused.refusal();
        }
        throw refused.refusal();
    }

    public static int await(CyclicBarrier barrier, long limit, TimeUnit unit) throws InterruptedException, BrokenBarrierException, TimeoutException {
        arrive(barrier, false);
        return barrier.await(limit, unit);
    }

    public static int arrive(Phaser phaser) {
        arrive(phaser, false);
        return phaser.arrive();
    }

    public static int arriveAndDeregister(Phaser phaser) {
        arrive(phaser, true);
        return phaser.arriveAndDeregister();
    }

    public static int arriveAndAwaitAdvance(Phaser phaser) {
        Wait wait = meet(phaser, true, false);
        if (wait != null && wait.isRefused()) {
            arriveAndDeregister(phaser);
            throw wait.refusal();
        }
        try {
            return phaser.arriveAndAwaitAdvance();
        } finally {
            over(wait);
        }
    }

    public static int awaitAdvance(Phaser phaser, int turn) {
        Wait wait = awaitTurn(phaser, turn, false);
        check(wait);
        try {
            return phaser.awaitAdvance(turn);
        } finally {
            over(wait);
        }
    }

    public static int awaitAdvanceInterruptibly(Phaser phaser, int turn) throws InterruptedException {
        Wait wait = isInterrupted() ? null : awaitTurn(phaser, turn, true);
        check(wait);
        try {
            return phaser.awaitAdvanceInterruptibly(turn);
        } finally {
            over(wait);
        }
    }

    public static void await(CountDownLatch latch) throws InterruptedException {
        Wait wait = isInterrupted() ? null : meet(latch, false, true);
        check(wait);
        try {
            latch.await();
        } finally {
            over(wait);
        }
    }

    public static void countDown(CountDownLatch latch) {
        arrive(latch, false);
        latch.countDown();
    }

    // ---- threads and futures

    public static void join(Thread thread) throws InterruptedException {
        join(thread, 0);
    }

    public static void join(Thread thread, long limit) throws InterruptedException {
        Wait wait = limit == 0 && thread != null && thread.isAlive() && !isInterrupted() ? ask(thread, true) : null;
        check(wait);
        try {
            thread.join(limit);
        } finally {
            over(wait);
        }
    }

    public static void interrupt(Thread thread) {
        Recorder recorder = Recorder.on;
        try {
            if (recorder != null && thread != null) {
                recorder.interrupt(thread);
            }
        } catch (RuntimeException | Error e) {
            failed(recorder, e);
        }
        thread.interrupt();
    }

    public static Object get(Future<?> future) throws InterruptedException, ExecutionException {
        Wait wait = isInterrupted() ? null : future instanceof FutureTask ? ask(future, true) : future instanceof CompletableFuture ? meet(future, false, true) : null;
        check(wait);
        try {
            return future.get();
        } finally {
            over(wait);
        }
    }

    public static Object get(RunnableFuture<?> future) throws InterruptedException, ExecutionException {
        return get((Future<?>) future);
    }

    public static Object get(ScheduledFuture<?> future) throws InterruptedException, ExecutionException {
        return get((Future<?>) future);
    }

    public static Object get(RunnableScheduledFuture<?> future) throws InterruptedException, ExecutionException {
        return get((Future<?>) future);
    }

    public static Object get(FutureTask<?> future) throws InterruptedException, ExecutionException {
        return get((Future<?>) future);
    }

    public static Object get(CompletableFuture<?> future) throws InterruptedException, ExecutionException {
        return get((Future<?>) future);
    }

    public static Object join(CompletableFuture<?> future) {
        Wait wait = meet(future, false, false);
        check(wait);
        try {
            return future.join();
        } finally {
            over(wait);
        }
    }

    // ---- locks

    /** Those that know who has them. A class of the program may do otherwise, so it is let be. */
    private static boolean isKnown(Lock lock) {
        Class<?> type = lock == null ? null : lock.getClass();
        return type == ReentrantLock.class || type == ReentrantReadWriteLock.ReadLock.class || type == ReentrantReadWriteLock.WriteLock.class;
    }

    /** Takes a lock as its lock() would without a wait; false where it would wait. */
    private static boolean isTaken(Lock lock) {
        if (lock.getClass() == ReentrantLock.class && !((ReentrantLock) lock).isFair()) {
            return lock.tryLock();
        }
        try {
            return lock.tryLock(0, TimeUnit.NANOSECONDS);           // this one lets those go first who came first, where the lock is fair
        } catch (InterruptedException e) {
            Thread.currentThread().interrupt();
            return false;
        }
    }

    public static void lock(Lock lock) {
        if (Recorder.on != null && isKnown(lock)) {
            if (!isTaken(lock)) {
                slowly(lock);
            }
        } else {
            lock.lock();
        }
    }

    private static void slowly(Lock lock) {
        Wait wait = ask(lock, false);
        check(wait);
        try {
            lock.lock();
        } finally {
            over(wait);
        }
    }

    public static void lockInterruptibly(Lock lock) throws InterruptedException {
        if (Recorder.on == null || !isKnown(lock) || isInterrupted()) {
            lock.lockInterruptibly();
        } else if (!isTaken(lock)) {
            Wait wait = ask(lock, true);
            check(wait);
            try {
                lock.lockInterruptibly();
            } finally {
                over(wait);
            }
        }
    }

    public static void lock(ReentrantLock lock) {
        lock((Lock) lock);
    }

    public static void lock(ReentrantReadWriteLock.ReadLock lock) {
        lock((Lock) lock);
    }

    public static void lock(ReentrantReadWriteLock.WriteLock lock) {
        lock((Lock) lock);
    }

    public static void lockInterruptibly(ReentrantLock lock) throws InterruptedException {
        lockInterruptibly((Lock) lock);
    }

    public static void lockInterruptibly(ReentrantReadWriteLock.ReadLock lock) throws InterruptedException {
        lockInterruptibly((Lock) lock);
    }

    public static void lockInterruptibly(ReentrantReadWriteLock.WriteLock lock) throws InterruptedException {
        lockInterruptibly((Lock) lock);
    }
}

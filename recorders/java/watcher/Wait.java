package armus;

import java.util.Map;
import java.util.concurrent.FutureTask;
import java.util.concurrent.Phaser;

/** What a thread waits for: an object, and the thread that has to act where it is known, and else any. */
final class Wait {
    /** Equal as long as the thread stands in the same wait. */
    final String mark;
    final String place;
    /** The object as the messages call it, CyclicBarrier or end-of. */
    String kind;
    /** Which object it is. */
    String object;
    /** The number of the thread that has to act, or -1 for any. */
    long by = -1;
    /** Whether it is a lock with an owner: its mark tells that the wait is over, and the machine wakes who waits for a monitor from time to time to look again. */
    boolean isOwned;
    /** The name of a joined thread. */
    String ends;
    /** The phase of a phaser, or -1. */
    int phase = -1;
    private Phaser phaser;
    private FutureTask<?> future;
    private Object latch;
    private Thread joined;
    private Inside inside;

    Wait(String mark, String place) {
        this.mark = mark;
        this.place = place;
    }

    void any(String kind, String object) {
        this.kind = kind;
        this.object = object;
    }

    void of(String kind, String object, long owner) {
        any(kind, object);
        by = owner;
        isOwned = true;
    }

    void end(Thread joined, long id) {
        any("end-of", "end-of " + id);
        by = id;
        ends = joined.getName();
        this.joined = joined;
    }

    void future(Inside inside, FutureTask<?> future) {
        any("Future", "future " + System.identityHashCode(future));
        this.inside = inside;
        this.future = future;
    }

    void latch(Inside inside, Object sync) {
        any("CountDownLatch", "latch " + System.identityHashCode(sync));
        this.inside = inside;
        latch = sync;
    }

    void phaser(Inside inside, Object node) {
        any("Phaser", "phaser " + System.identityHashCode(node));
        Object found = inside.value(node, "phaser");
        Object turn = inside.value(node, "phase");
        if (found instanceof Phaser && turn instanceof Integer) {
            phaser = (Phaser) found;
            object = "phaser " + System.identityHashCode(found);
            phase = (Integer) turn;
        }
    }

    /** Whether what it waits for has come, though the thread still stands there. */
    boolean isOver() {
        return phaser != null && phaser.getPhase() != phase || future != null && inside.isDone(future) || joined != null && !joined.isAlive() || latch != null && inside.isOpen(latch);
    }

    /** The runner of a future is known only when it runs. */
    void refresh(Map<Long, Thread> present) {
        if (future != null) {
            Object runner = inside.runner(future);
            by = runner instanceof Thread && present.containsKey(inside.id((Thread) runner)) ? inside.id((Thread) runner) : -1;
            kind = runner == null ? "Future-not-begun" : "Future";
        }
    }

    String key() {
        return kind + " " + object + " " + by + " " + phase;
    }
}

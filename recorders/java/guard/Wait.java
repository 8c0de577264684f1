package armus;

/** A wait that was announced. It is over as soon as its thread goes on; the monitor is told so before anything else. */
final class Wait {
    final Task task;
    final Awaited awaited;
    /** Kept while somebody waits for it. */
    final Object object;
    private final int question;
    private final boolean isKept;
    /** Whether an interrupt ends it. */
    private final boolean mayBeInterrupted;
    private volatile boolean isGranted;
    private volatile boolean isOver;
    private DeadlockException refusal;

    /** The last question of a task. */
    Wait(Task task, Awaited awaited, Object object, boolean mayBeInterrupted) {
        this.task = task;
        this.awaited = awaited;
        this.object = object;
        question = task.asks();
        isKept = awaited.isKept();
        isGranted = !isKept;
        this.mayBeInterrupted = mayBeInterrupted;
    }

    /** The number of its question. */
    int question() {
        return question;
    }

    /** Whether somebody had still to act when it began. */
    boolean isKept() {
        return isKept;
    }

    /** The monitor knows that it stands. */
    void grant() {
        isGranted = true;
    }

    boolean isGranted() {
        return isGranted;
    }

    /** Its thread is interrupted, though it may not have gone on yet. */
    void interrupt() {
        isOver |= mayBeInterrupted;
    }

    void over() {
        isOver = true;
    }

    boolean isOver() {
        return isOver;
    }

    void refuse(String sentence) {
        refusal = new DeadlockException(sentence);
    }

    boolean isRefused() {
        return refusal != null;
    }

    /** What the refused call throws: as if it had been made where the program made the call. */
    DeadlockException refusal() {
        refusal.setStackTrace(Places.ofProgram(new Throwable().getStackTrace()));
        return refusal;
    }
}

package armus;

/** What one thread alone has to end, where it is known: the holder of a lock, the runner of a future, a thread that is joined. */
abstract class Owned extends Awaited {
    private Part part;
    private Thread now;

    Owned(String name) {
        super(name);
    }

    /** Who has to act, or nothing where it is over or nobody knows. */
    abstract Thread keeper();

    /** Whether who waits for it becomes the keeper himself. */
    abstract boolean isTaken();

    @Override
    long turn() {
        return 0;
    }

    @Override
    boolean isKept() {
        return part != null;
    }

    @Override
    void look() {
        now = keeper();
    }

    @Override
    void lookAway() {
        now = null;
    }

    @Override
    boolean isTakenBy(Task task) {
        return isTaken() && now != null && task.is(now);
    }

    @Override
    void interrupt() {
        return;
    }

    @Override
    void settle(Recorder recorder) {
        if (part != null && (now == null || !part.by.is(now))) {
            release(recorder);
        }
    }

    @Override
    void keep(Recorder recorder) {
        if (now != null && part == null) {
            part = recorder.part(recorder.task(now));
            part.lags(name, 0, recorder.lines());
        }
    }

    @Override
    void release(Recorder recorder) {
        if (part != null) {
            part.end(recorder.lines());
            part = null;
        }
    }
}

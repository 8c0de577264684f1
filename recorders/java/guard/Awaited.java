package armus;

/** What threads wait for: a phaser of the monitor. What the monitor knows of it is brought up to date before each question, by what the object itself says then. */
abstract class Awaited {
    /** As the monitor knows it, behind the process. */
    final String name;
    private int waiting;

    Awaited(String name) {
        this.name = name;
    }

    /** The turn that goes on: who waits, waits for the next one. */
    abstract long turn();

    /** Whether somebody who is known has still to act, so that a wait might not end. */
    abstract boolean isKept();

    /** Looks who has still to act. Nothing is told. */
    abstract void look();

    /** Nobody is known to have to act. */
    abstract void lookAway();

    /** Whether what was waited for is now this task's, so that its wait is over. */
    abstract boolean isTakenBy(Task task);

    /** Says who has done his part, as it was when it was looked at. */
    abstract void settle(Recorder recorder);

    /** Says who has still to do it. */
    abstract void keep(Recorder recorder);

    /** One who waits for it is interrupted. */
    abstract void interrupt();

    /** Nobody waits for it any more. */
    abstract void release(Recorder recorder);

    boolean isAwaited() {
        return waiting > 0;
    }

    void comes() {
        waiting++;
    }

    /** True where it was the last one. */
    boolean goes() {
        return --waiting == 0;
    }
}

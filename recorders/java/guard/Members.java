package armus;

/** Says who has to come to a barrier, a phaser, a latch or a future in every turn, for armus-run --guard; without it, this does nothing. */
public final class Members {
    private static volatile boolean isTold;

    private Members() {
    }

    /** The current thread is a party of each of these. */
    public static void member(Object... objects) {
        member(Thread.currentThread(), objects);
    }

    /** A thread is a party of each of these; said before it starts, so that nobody waits for it unseen. */
    public static void member(Thread thread, Object... objects) {
        for (Object object : Recorder.on == null ? new Object[0] : objects) {
            if (Meetings.kind(object) != null) {
                Operations.member(thread, object);
            } else if (!isTold) {
                isTold = true;                                    // once: a program may say it in each turn
                Recorder.tell("member: of " + (object == null ? "null" : object.getClass().getName()) + " nobody is a member");
            }
        }
    }
}

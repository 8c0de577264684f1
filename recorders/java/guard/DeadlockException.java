package armus;

/** A wait that would never have ended: the call did not begin it. The message says who would have waited for whom. */
public final class DeadlockException extends IllegalStateException {
    private static final long serialVersionUID = 1;

    DeadlockException(String sentence) {
        super(sentence);
    }
}

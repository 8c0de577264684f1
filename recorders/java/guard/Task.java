package armus;

import java.lang.ref.WeakReference;

/** A thread that has to do with a wait: it waits itself, or others wait for it. Its questions are counted, and so are their answers, which come in the same order. */
final class Task {
    /** As the monitor knows it, behind the process. */
    final String name;
    private final WeakReference<Thread> thread;
    /** The wait in which it is, or was last. */
    Wait wait;
    private boolean hasBegun;
    private int memberships;
    private int asked;
    private int answered;
    private boolean isWoken;
    private String refusal;

    Task(String name, Thread thread) {
        this.name = name;
        this.thread = new WeakReference<>(thread);
    }

    boolean is(Thread other) {
        return thread.get() == other;
    }

    boolean isInterrupted(Inside inside) {
        Thread own = thread.get();
        return own != null && inside.isInterrupted(own);
    }

    boolean hasEnded(Inside inside) {
        Thread own = thread.get();
        if (own == null) {
            return true;
        }
        boolean lives = own.isAlive();
        hasBegun |= lives || !lives && inside.hasBegun(own);
        return hasBegun && !own.isAlive();
    }

    /** Counts a question; the number of it. */
    synchronized int asks() {
        return ++asked;
    }

    /** It becomes a member of something, or is so no more. */
    void belongs(int more) {
        memberships += more;
    }

    /** Whether nobody will name it any more, once it has ended. */
    synchronized boolean isForgotten() {
        return memberships == 0 && asked == answered;
    }

    /** The next answer: nothing where the wait stands, else the sentence of the monitor. */
    synchronized void answer(String sentence) {
        answered++;
        refusal = sentence;
        notifyAll();
    }

    synchronized boolean isAnswered(int question) {
        return answered >= question;
    }

    /** From now on it is told whether it was woken. */
    synchronized void calm() {
        isWoken = false;
    }

    /** Waits until it is woken, or its question is answered, or this many milliseconds have passed; true where it was interrupted. */
    synchronized boolean pause(int question, long longest) {
        try {
            if (!isWoken && answered < question) {
                wait(longest);
            }
            return false;
        } catch (InterruptedException e) {
            return true;
        }
    }

    /** The sentence of the last answer, or nothing. */
    synchronized String refusal() {
        return refusal;
    }

    /** Another one has read, or nobody answers any more. */
    synchronized void wake() {
        isWoken = true;
        notifyAll();
    }
}

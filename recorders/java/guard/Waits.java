package armus;

import java.util.ArrayList;
import java.util.Iterator;
import java.util.LinkedHashSet;
import java.util.List;
import java.util.Set;

/** The waits that were announced, and all that is waited for: what the monitor knows, which is brought up to date before each question. */
final class Waits {
    private static final int MOST_LOOKS = 50;    // so often is looked anew where somebody went on meanwhile

    private final Recorder recorder;
    private final Inside inside;
    private final List<Wait> waits = new ArrayList<>();
    private final Set<Awaited> awaited = new LinkedHashSet<>();
    private volatile int fence;

    Waits(Recorder recorder, Inside inside) {
        this.recorder = recorder;
        this.inside = inside;
    }

    /** Somebody is about to ask for this. */
    void expect(Awaited of) {
        of.comes();
        awaited.add(of);
    }

    /** It was asked for. */
    void add(Wait wait) {
        wait.task.wait = wait;
        waits.add(wait);
    }

    /** It was refused. */
    void forget(Wait refused) {
        waits.remove(refused);
        unlist(refused);
    }

    /** First who went on, then who did his part, then who has still to act, and then who had ended at the beginning of all this. */
    void catchUp() {
        List<Task> dead = recorder.tasks().dead();
        int looks = 0;
        while (!isStill() && looks < MOST_LOOKS) {
            looks++;
        }
        for (Awaited one : awaited) {
            if (looks == MOST_LOOKS) {
                one.lookAway();
            }
            one.settle(recorder);
        }
        for (Awaited one : awaited) {
            one.keep(recorder);
        }
        recorder.tasks().end(dead);
    }

    /** Looks at all that is waited for. True where all who are said to wait have stood in their waits while it looked: so whatever one of them had then, it had all the time. */
    private boolean isStill() {
        goOn();
        for (Awaited one : awaited) {
            one.look();
        }
        fence++;                                                  // what is read behind this is not older than what was read before
        boolean isStill = true;
        for (Wait wait : waits) {
            if (wait.awaited.isTakenBy(wait.task)) {
                wait.over();
            }
            if (wait.task.isInterrupted(inside)) {
                wait.interrupt();
            }
            isStill &= !wait.isOver();
        }
        return isStill;
    }

    private void goOn() {
        for (Iterator<Wait> all = waits.iterator(); all.hasNext();) {
            Wait wait = all.next();
            if (wait.isOver() && wait.isGranted()) {
                all.remove();
                recorder.lines().say(wait.task.name + " go");
                unlist(wait);
            }
        }
    }

    private void unlist(Wait wait) {
        if (wait.task.wait == wait) {
            wait.task.wait = null;
        }
        if (wait.awaited.goes()) {
            awaited.remove(wait.awaited);
            wait.awaited.release(recorder);
        }
    }
}

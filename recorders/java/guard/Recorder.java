package armus;

import java.io.FileDescriptor;
import java.io.FileOutputStream;
import java.io.IOException;
import java.nio.charset.StandardCharsets;
import java.util.concurrent.FutureTask;

/** What the monitor has to know. Before a wait without a time limit its thread tells what has changed, and asks. Each object that is waited for is looked at then: a lock
 * for its holder, a future for its runner, a thread for its end, a barrier by what its members did. A thread that waits holds what it held when it asked, so what is told of
 * those that wait is so. The lock of this object is held while lines are written, and never while code of the program runs. */
final class Recorder {
    /** Nothing where there is no recorder, or it is off: then everybody may wait. */
    static volatile Recorder on;
    private static final long LONGEST = 5000;    // so many milliseconds may pass until an answer comes
    private static final int MOST_OPEN = 100;    // so many answers may be on their way before one who need not wait for his does

    private final Lines lines;
    private final Inside inside;
    private final Tasks tasks;
    private final Answers answers;
    private final Identities<Awaited> objects = new Identities<>();
    private final Waits waits;
    private final Names names;
    private volatile boolean hasMeetings;

    Recorder(Lines lines, Inside inside) throws IOException {
        this.lines = lines;
        this.inside = inside;
        tasks = new Tasks(lines, inside);
        answers = new Answers(this);
        waits = new Waits(this, inside);
        names = new Names(lines.process);
    }

    void begin() {
        on = this;
        look();
        answers.start();
    }

    Lines lines() {
        return lines;
    }

    Tasks tasks() {
        return tasks;
    }

    Task task(Thread thread) {
        return tasks.of(thread);
    }

    Part part(Task by) {
        return new Part(names.ofPart(), by);
    }

    /** A word of the recorder itself, which passes by what the program made of its own standard error. */
    static void tell(String text) {
        try {
            new FileOutputStream(FileDescriptor.err).write(("armus: " + text + "\n").getBytes(StandardCharsets.UTF_8));
        } catch (IOException e) {
            Operations.debug(e);
        }
    }

    /** Nobody is asked any more. */
    void off(String why) {
        if (on == this) {
            on = null;
            if (why != null) {
                tell(why + ": nothing more is refused; the program goes on");
            }
            tasks.wakeAll();
            lines.close();
        }
    }

    // ---- what the program does

    synchronized void member(Thread thread, Object object) {
        Awaited known = objects.get(object);
        if (known == null) {
            known = Meetings.of(object, names.of(Meetings.kind(object)), inside);
            objects.put(object, known);
        }
        if (known instanceof Meeting) {
            ((Meeting) known).member(task(thread), this);
        }
        hasMeetings = true;
        handOver();
    }

    private Meeting meeting(Object object) {
        Awaited known = hasMeetings ? objects.get(object) : null;
        return known instanceof Meeting ? (Meeting) known : null;
    }

    boolean hasMeetings() {
        return hasMeetings;
    }

    /** The current thread comes to a meeting and does not wait for it, or not without a limit. */
    synchronized void arrive(Object object) {
        Meeting meeting = meeting(object);
        if (meeting != null) {
            meeting.arrive(running());
            handOver();
        }
    }

    synchronized void leave(Object object) {
        Meeting meeting = meeting(object);
        if (meeting != null) {
            meeting.leave(running(), this);
            handOver();
        }
    }

    /** The current thread comes to a meeting if it arrives there, and then waits for the others. Nothing where it need not be told. */
    Wait meet(Object object, boolean arrives, boolean mayBeInterrupted) {
        Wait wait;
        synchronized (this) {
            Meeting meeting = meeting(object);
            if (meeting == null || arrives && meeting.arrive(running()) || !meeting.mayWait()) {
                return null;
            }
            wait = announce(meeting, object, mayBeInterrupted);
        }
        return answered(wait);
    }

    /** The current thread waits for the end of a turn of a phaser. */
    Wait awaitTurn(Object phaser, int turn, boolean mayBeInterrupted) {
        Wait wait;
        synchronized (this) {
            Meeting meeting = meeting(phaser);
            if (meeting == null || !meeting.mayWait() || meeting.turn() != turn) {
                return null;
            }
            wait = announce(meeting, phaser, mayBeInterrupted);
        }
        return answered(wait);
    }

    /** A thread is about to be interrupted: its wait ends by this. */
    synchronized void interrupt(Thread thread) {
        Task task = tasks.known(thread);
        if (task != null && task.wait != null) {
            task.wait.interrupt();
            if (task.wait.isOver()) {
                task.wait.awaited.interrupt();
            }
        }
    }

    /** Whether a future has come, whatever the program's class says of it. */
    synchronized boolean isDone(FutureTask<?> future) {
        return inside.isDone(future);
    }

    /** The current thread waits for what one other has to end. */
    Wait await(Object object, boolean mayBeInterrupted) {
        Wait wait;
        synchronized (this) {
            Awaited known = objects.get(object);
            if (known == null) {
                known = Owners.of(object, names.of(Owners.kind(object)), inside);
                objects.put(object, known);
            }
            wait = announce(known, object, mayBeInterrupted);
        }
        return answered(wait);
    }

    // ---- questions

    /** The task of the current thread, which runs. */
    private Task running() {
        Task task = task(Thread.currentThread());
        if (task.wait != null) {
            task.wait.over();
        }
        return task;
    }

    private Wait announce(Awaited of, Object object, boolean mayBeInterrupted) {
        Task task = running();
        waits.expect(of);
        waits.catchUp();
        lines.say(task.name + " wait " + of.name + " " + (of.turn() + 1) + " @" + Places.here());
        Wait wait = new Wait(task, of, object, mayBeInterrupted);
        tasks.asks();
        waits.add(wait);
        handOver();
        return wait;
    }

    private Wait answered(Wait wait) {
        Task task = wait.task;
        if (!wait.isKept() && tasks.open() < MOST_OPEN) {
            return wait;                                          // nobody has to act: the answer is known
        }
        if (!answers.await(task, wait.question(), LONGEST)) {
            giveUp();
            return wait;
        }
        String sentence = task.refusal();
        if (sentence != null) {
            wait.refuse(sentence);
            synchronized (this) {
                waits.forget(wait);
                handOver();
            }
        } else {
            wait.grant();
        }
        return wait;
    }

    private synchronized void giveUp() {
        if (on == this) {
            lines.say("# off");
            handOver();
            off("no answer came in time");
        }
    }

    // ---- lines

    private void handOver() {
        try {
            lines.handOver(LONGEST);
        } catch (IOException e) {
            off("what is written is not read");
        }
    }

    /** From time to time: what changed since anybody asked, and what is not needed any more. */
    synchronized void look() {
        waits.catchUp();
        for (Awaited gone : objects.collected()) {
            names.free(gone.name);
            if (gone instanceof Meeting) {
                ((Meeting) gone).end(this);
            }
        }
        handOver();
    }
}

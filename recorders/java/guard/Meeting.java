package armus;

import java.util.ArrayList;
import java.util.HashSet;
import java.util.LinkedHashMap;
import java.util.List;
import java.util.Map;
import java.util.Set;

/** A barrier, a phaser, a latch or a future, with the threads of which the program has said that each has to come in every turn. Where a turn ends without one of them,
 * or one comes twice, what was said is not so: then nothing is known any more. */
abstract class Meeting extends Awaited {
    private final Map<Task, Part> members = new LinkedHashMap<>();
    private final Set<Task> arrived = new HashSet<>();
    private final List<Part> ended = new ArrayList<>();
    private Object mark;
    /** The turn in which a barrier breaks as soon as somebody runs who was interrupted. */
    private Object broken;
    private long turn;
    private int arrivals;
    private boolean isUnknown;
    private boolean isAway;

    Meeting(String name) {
        super(name);
    }

    /** An object that is another one for each turn. */
    abstract Object mark();

    /** Whether nobody has to wait in this turn, whoever has come. */
    abstract boolean isOpen(Object mark);

    /** The number of the turn with this mark, behind one of this number. */
    abstract long turn(Object mark, long before);

    /** How many have to come, or 0 where that does not count. */
    abstract int parties();

    @Override
    void look() {
        isAway = false;
        Object now = mark();
        if (mark == null || !now.equals(mark)) {
            if (mark != null && broken != mark && !isOpen(mark) && !isOpen(now) && !arrived.containsAll(members.keySet())) {
                forget();
            }
            turn = mark == null ? turn(now, -1) : turn(now, turn);
            mark = now;
            arrived.clear();
            arrivals = 0;
        }
    }

    @Override
    void lookAway() {
        isAway = true;
    }

    @Override
    boolean isTakenBy(Task task) {
        return false;
    }

    private void forget() {
        isUnknown = true;
        for (Map.Entry<Task, Part> member : members.entrySet()) {
            ended.add(member.getValue());
            member.getKey().belongs(-1);
        }
        members.clear();
    }

    /** Whether nobody has to wait, or not for long. */
    private boolean isOver() {
        return isAway || broken == mark || isOpen(mark);
    }

    private boolean hasCome(Task task) {
        return arrived.contains(task) || isOver();
    }

    @Override
    void interrupt() {
        look();
        broken = parties() > 0 ? mark : broken;
    }

    void member(Task task, Recorder recorder) {
        look();
        if (!isUnknown && !members.containsKey(task)) {
            members.put(task, recorder.part(task));
            task.belongs(1);
        }
    }

    /** A task comes; true where it is the last of this turn. */
    boolean arrive(Task task) {
        look();
        if (isOpen(mark)) {
            return false;                                         // a barrier that is broken, a phaser that is terminated: nobody comes
        }
        arrivals++;
        if (members.containsKey(task) && !arrived.add(task)) {
            forget();
        }
        int lagging = members.size() - arrived.size();
        if (parties() > 0 && arrivals + lagging > parties()) {
            forget();
        }
        return arrivals == parties();
    }

    void leave(Task task, Recorder recorder) {
        Part part = members.remove(task);
        arrived.remove(task);
        if (part != null) {
            part.end(recorder.lines());
            task.belongs(-1);
        }
    }

    /** Whether a wait has to be announced: a turn goes on, and somebody has said who belongs to it. */
    boolean mayWait() {
        look();
        return !members.isEmpty() && !isOver();
    }

    @Override
    long turn() {
        return turn;
    }

    @Override
    boolean isKept() {
        return !isOver() && !arrived.containsAll(members.keySet());
    }

    @Override
    void settle(Recorder recorder) {
        for (Part part : ended) {
            part.end(recorder.lines());
        }
        ended.clear();
        for (Map.Entry<Task, Part> member : members.entrySet()) {
            member.getValue().goesOn(name, hasCome(member.getKey()) ? turn + 1 : turn, recorder.lines());
        }
    }

    @Override
    void keep(Recorder recorder) {
        for (Map.Entry<Task, Part> member : members.entrySet()) {
            if (!hasCome(member.getKey())) {
                member.getValue().lags(name, turn, recorder.lines());
            }
        }
    }

    @Override
    void release(Recorder recorder) {
        settle(recorder);
    }

    /** The object is gone. */
    void end(Recorder recorder) {
        forget();
        settle(recorder);
    }
}

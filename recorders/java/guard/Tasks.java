package armus;

import java.util.ArrayList;
import java.util.Iterator;
import java.util.List;
import java.util.Map;
import java.util.concurrent.ConcurrentHashMap;
import java.util.concurrent.atomic.AtomicInteger;

/** The threads that have to do with a wait, by the names that the monitor knows. A name is used again only when its thread has ended, all its questions are answered and it
 * is a member of nothing. */
final class Tasks {
    private static final int NAME = 40;

    private final Lines lines;
    private final Inside inside;
    private final Identities<Task> byThread = new Identities<>();
    private final List<Task> living = new ArrayList<>();
    private final List<Task> ended = new ArrayList<>();
    private final Map<String, Task> byName = new ConcurrentHashMap<>();
    private final AtomicInteger open = new AtomicInteger();

    Tasks(Lines lines, Inside inside) {
        this.lines = lines;
        this.inside = inside;
    }

    /** A text as the monitor takes it for a part of a name. */
    static String named(String text) {
        StringBuilder name = new StringBuilder();
        for (int i = 0; i < Math.min(NAME, text.length()); i++) {
            char c = text.charAt(i);
            name.append(c > ' ' && c < 127 && c != '/' && c != ',' && c != ';' && (c != '?' || i > 0) ? c : '_');      // those of wildcards begin with '?'
        }
        return name.length() == 0 ? "_" : name.toString();
    }

    Task of(Thread thread) {
        Task task = byThread.get(thread);
        if (task == null) {
            String base = lines.process + "/" + named(thread.getName());
            String name = base;
            for (int k = 2; byName.containsKey(name); k++) {
                name = base + "_" + k;
            }
            task = new Task(name, thread);
            byThread.put(thread, task);
            byName.put(name, task);
            living.add(task);
            lines.say(name + " at @running");
        }
        return task;
    }

    /** The task of a thread, or nothing where it has not to do with a wait yet. */
    Task known(Thread thread) {
        return byThread.get(thread);
    }

    /** Those whose threads have ended by now. */
    List<Task> dead() {
        List<Task> dead = new ArrayList<>();
        for (Task task : living) {
            if (task.wait == null && task.hasEnded(inside)) {
                dead.add(task);
            }
        }
        return dead;
    }

    /** These have ended. Names that are not needed any more become free. */
    void end(List<Task> dead) {
        for (Task task : dead) {
            lines.say(task.name + " end");
        }
        living.removeAll(dead);
        ended.addAll(dead);
        for (Iterator<Task> all = ended.iterator(); all.hasNext();) {
            Task task = all.next();
            if (task.isForgotten()) {
                byName.remove(task.name);
                all.remove();
            }
        }
        byThread.collected();
    }

    /** How many questions of all tasks are not answered yet. */
    int open() {
        return open.get();
    }

    void asks() {
        open.incrementAndGet();
    }

    void answer(String name, String sentence) {
        Task task = byName.get(name);
        if (task != null) {
            open.decrementAndGet();
            task.answer(sentence);
        }
    }

    void wakeAll() {
        for (Task task : byName.values()) {
            task.wake();
        }
    }
}

package armus;

import java.util.ArrayList;
import java.util.HashMap;
import java.util.HashSet;
import java.util.LinkedHashMap;
import java.util.LinkedHashSet;
import java.util.List;
import java.util.Map;
import java.util.Set;

/** Says who is there and who waits for what, in the order in which the monitor wants it: who is new, who went on, who ended, who waits. */
final class Announcer {
    private static final int NAME = 40;
    private static final int LINE = 511;
    private static final int TURNS = 3;
    private static final int KEPT = 4096;

    /** Those who wait for one turn of one object. */
    private static final class Group {
        final String name;
        final int turn;
        final Set<Object> waiters = new LinkedHashSet<>();
        String ends;

        Group(String name, int turn) {
            this.name = name;
            this.turn = turn;
        }
    }

    private final Lines lines;
    private final Map<Object, String> names = new LinkedHashMap<>();
    private final Set<String> used = new HashSet<>();
    private final Map<Object, String> waits = new HashMap<>();
    private final Map<String, Group> groups = new HashMap<>();
    private boolean anyIsSaid;
    private final Set<String> inUse = new HashSet<>();
    private final Map<String, Integer> numbers = new HashMap<>();
    private final Map<String, Integer> counts = new HashMap<>();
    private final Map<String, Integer> turns = new HashMap<>();

    Announcer(Lines lines) {
        this.lines = lines;
    }

    private String task(Object key) {
        return lines.process + "/" + names.get(key);
    }

    private static String named(String text) {
        StringBuilder name = new StringBuilder();
        for (int i = 0; i < Math.min(NAME, text.length()); i++) {
            char c = text.charAt(i);
            name.append(c > ' ' && c < 127 && c != '/' && (c != '?' || i > 0) ? c : '_');      // those of wildcards begin with '?'
        }
        return name.length() == 0 ? "_" : name.toString();
    }

    private void begins(Object key, String text, String place) {
        String base = named(text);
        String name = base;
        for (int k = 2; !used.add(name); k++) {
            name = base + "_" + k;
        }
        names.put(key, name);
        lines.say(task(key) + " at @" + place);
    }

    /** Where nobody knows who may act it is any thread of this process: a wildcard that is a member of all such phasers. */
    private void sayAny() {
        StringBuilder line = new StringBuilder(lines.process + "/?any-thread of");
        for (Object key : names.keySet()) {
            line.append(' ').append(task(key));
        }
        lines.say(line.length() < LINE && names.size() > 1 ? line.toString() : lines.process + "/?any-thread any");
        anyIsSaid = true;
    }

    void announce(Map<Long, Thread> present, List<String> others, Map<Long, Wait> standing) {
        int before = names.size();
        Set<Object> there = new HashSet<>(present.keySet());
        there.addAll(others);
        for (Map.Entry<Long, Thread> entry : present.entrySet()) {
            if (!names.containsKey(entry.getKey())) {
                begins(entry.getKey(), entry.getValue().getName(), Watcher.place(entry.getValue().getStackTrace()));
            }
        }
        for (String other : others) {
            if (!names.containsKey(other)) {
                begins(other, other, "outside");
            }
        }
        if (anyIsSaid && names.size() > before) {
            sayAny();
        }
        for (Object key : new ArrayList<>(waits.keySet())) {
            Wait wait = standing.get(key);
            if (waits.containsKey(key) && (wait == null || !wait.key().equals(waits.get(key)))) {
                retire(waits.get(key));
            }
        }
        for (Object key : new ArrayList<>(names.keySet())) {
            if (!there.contains(key)) {
                lines.say(task(key) + " end");
                used.remove(names.remove(key));
            }
        }
        for (int turn = 0; turn < TURNS; turn++) {
            waitAll(present, standing, turn);
        }
    }

    /** Who joins is announced first, then who waits for anybody, and then who waits for a thread that has to do something: the last of them begins the message. */
    private static int turnOf(Wait wait) {
        return wait.ends != null ? 0 : wait.by < 0 ? 1 : TURNS - 1;
    }

    private void retire(String key) {
        Group group = groups.remove(key);
        lines.say(group.ends);
        for (Object waiter : group.waiters) {
            lines.say(task(waiter) + " go");
            waits.remove(waiter);
        }
        turns.put(group.name, group.turn + 1);
        inUse.remove(group.name);
        if (turns.size() > KEPT) {                             // what was waited for once is not kept for ever; a number does not come again
            turns.keySet().retainAll(inUse);
            numbers.clear();
        }
    }

    private void waitAll(Map<Long, Thread> present, Map<Long, Wait> standing, int turn) {
        for (Map.Entry<Long, Wait> entry : standing.entrySet()) {
            Wait wait = entry.getValue();
            if (names.containsKey(entry.getKey()) && !waits.containsKey(entry.getKey()) && turnOf(wait) == turn) {
                Group group = groups.get(wait.key());
                if (group == null) {
                    group = begin(wait, present, standing);
                }
                group.waiters.add(entry.getKey());
                waits.put(entry.getKey(), wait.key());
                lines.say(task(entry.getKey()) + " wait " + lines.process + "/" + group.name + " " + (group.turn + 1) + " @" + wait.place);
            }
        }
    }

    private Group begin(Wait wait, Map<Long, Thread> present, Map<Long, Wait> standing) {
        String name = wait.ends != null ? "end-of-" + named(wait.ends) : named(wait.kind) + "-" + number(wait);
        for (int k = 2; inUse.contains(name); k++) {
            name = name.replaceFirst("([.]\\d+)?$", "." + k);     // the same object, kept by another thread
        }
        inUse.add(name);
        Integer turn = turns.get(name);
        Group group = new Group(name, wait.phase >= 0 && (turn == null || wait.phase >= turn) ? wait.phase : turn == null ? 0 : turn);
        String phaser = lines.process + "/" + name;
        String wildcard = lines.process + "/?" + name;
        Object by = wait.by;
        if (wait.by >= 0 && names.containsKey(by)) {
            if (!standing.containsKey(wait.by) && !waits.containsKey(by) && present.containsKey(wait.by)) {
                lines.say(task(by) + " at @" + Watcher.place(present.get(wait.by).getStackTrace()));
            }
            lines.say(wildcard + " of " + task(by));
            group.ends = wildcard + " end";
        } else {
            wildcard = lines.process + "/?any-thread";
            if (!anyIsSaid) {
                sayAny();
            }
            group.ends = wildcard + " leave " + phaser;
        }
        lines.say(wildcard + " join " + phaser + " " + group.turn);
        groups.put(wait.key(), group);
        return group;
    }

    private int number(Wait wait) {
        String object = wait.kind + " " + wait.object;
        Integer known = numbers.get(object);
        if (known == null) {
            known = counts.merge(wait.kind, 1, Integer::sum);
            numbers.put(object, known);
        }
        return known;
    }
}

package armus;

import java.util.HashMap;
import java.util.HashSet;
import java.util.Map;
import java.util.Set;

/** The names of what is waited for, behind the process. */
final class Names {
    private final String process;
    private final Map<String, Integer> counts = new HashMap<>();
    private final Set<String> used = new HashSet<>();

    Names(String process) {
        this.process = process;
    }

    /** A name that no other object has as long as this one is there: end-of-NAME of a thread, and KIND-1, KIND-2 of others. */
    String of(String kind) {
        String base = Tasks.named(kind);
        boolean isThread = base.startsWith("end-of-");
        int number = isThread ? 1 : counts.merge(base, 1, Integer::sum);
        String name = isThread ? base : base + "-" + number;
        while (!used.add(name)) {
            name = base + "-" + ++number;
        }
        return process + "/" + name;
    }

    /** The object with this name is gone. */
    void free(String name) {
        used.remove(name.substring(process.length() + 1));
    }

    /** A name for a part, which no other one has. */
    String ofPart() {
        return process + "/?part-" + counts.merge("part", 1, Integer::sum);
    }
}

package armus;

/** What a task has to do for those who wait: a wildcard of the monitor that this task alone may play. */
final class Part {
    private static final long NONE = -1;

    private final String name;
    final Task by;
    private boolean isNamed;
    private long phase = NONE;

    Part(String name, Task by) {
        this.name = name;
        this.by = by;
    }

    /** Says that its task has come as far as this phase. Nobody is kept waiting by what this says. */
    void goesOn(String awaited, long to, Lines lines) {
        if (phase != NONE && phase < to) {
            boolean isNext = phase + 1 == to;
            lines.say(name + (isNext ? " arrive " : " leave ") + awaited);
            phase = isNext ? to : NONE;
        }
    }

    /** Says that its task has still to come behind this phase. */
    void lags(String awaited, long at, Lines lines) {
        if (phase > at) {
            lines.say(name + " leave " + awaited);
            phase = NONE;
        }
        if (phase == NONE) {
            if (!isNamed) {
                lines.say(name + " of " + by.name);
                isNamed = true;
            }
            lines.say(name + " join " + awaited + " " + at);
            phase = at;
        }
    }

    void end(Lines lines) {
        if (isNamed) {
            lines.say(name + " end");
        }
        isNamed = false;
        phase = NONE;
    }
}

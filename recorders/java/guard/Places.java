package armus;

import java.lang.reflect.Method;
import java.util.ArrayList;
import java.util.List;
import java.util.function.Function;
import java.util.function.Predicate;
import java.util.stream.Stream;

/** Where in the program a call was made. */
final class Places {
    private static final String UNKNOWN = "Thread.java:1";
    /** Java 9 and later look at the frames that are needed alone. */
    private static final Walker WALKER = Walker.make();

    private Places() {
    }

    /** FILE:LINE of the innermost frame of the program on the stack of the current thread. */
    static String here() {
        String place = WALKER == null ? null : WALKER.place();
        return place == null ? of(new Throwable().getStackTrace()) : place;
    }

    private static String of(StackTraceElement[] frames) {
        for (StackTraceElement frame : frames) {
            if (frame.getLineNumber() > 0 && isOfProgram(frame.getClassName())) {
                return frame.getFileName() + ":" + frame.getLineNumber();
            }
        }
        return UNKNOWN;
    }

    private static boolean isOfProgram(String name) {
        return !name.startsWith("armus.") && !name.startsWith("java.") && !name.startsWith("javax.") && !name.startsWith("jdk.") && !name.startsWith("sun.")
            && !name.startsWith("com.sun.");
    }

    /** These frames without those of the recorder. */
    static StackTraceElement[] ofProgram(StackTraceElement[] frames) {
        List<StackTraceElement> kept = new ArrayList<>();
        for (StackTraceElement frame : frames) {
            if (!frame.getClassName().startsWith("armus.")) {
                kept.add(frame);
            }
        }
        return kept.toArray(new StackTraceElement[0]);
    }

    /** ReentrantLock of java.util.concurrent.locks.ReentrantLock, WriteLock of java.util.concurrent.locks.ReentrantReadWriteLock$WriteLock. */
    static String simple(String name) {
        return name.substring(Math.max(name.lastIndexOf('.'), name.lastIndexOf('$')) + 1);
    }

    /** The walker of stacks, which a Java 8 does not have. */
    private static final class Walker implements Function<Stream<?>, String>, Predicate<Object> {
        private final Object walker;
        private final Method walk;
        private final Method className;
        private final Method element;

        private Walker() throws ReflectiveOperationException {
            Class<?> type = Class.forName("java.lang.StackWalker");
            Class<?> frame = Class.forName("java.lang.StackWalker$StackFrame");
            walker = type.getMethod("getInstance").invoke(null);
            walk = type.getMethod("walk", Function.class);
            className = frame.getMethod("getClassName");
            element = frame.getMethod("toStackTraceElement");
        }

        static Walker make() {
            try {
                return System.getenv("ARMUS_AS_JAVA_8") == null ? new Walker() : null;
            } catch (ReflectiveOperationException e) {
                return null;
            }
        }

        String place() {
            try {
                return (String) walk.invoke(walker, this);
            } catch (ReflectiveOperationException | RuntimeException e) {
                return null;
            }
        }

        @Override
        public String apply(Stream<?> frames) {
            Object found = frames.filter(this).findFirst().orElse(null);
            return found == null ? UNKNOWN : String.valueOf(line(found));
        }

        /** Whether a frame is one of the program that has a line. */
        @Override
        public boolean test(Object frame) {
            try {
                return isOfProgram((String) className.invoke(frame)) && line(frame) != null;
            } catch (ReflectiveOperationException e) {
                return false;
            }
        }

        private String line(Object frame) {
            try {
                StackTraceElement found = (StackTraceElement) element.invoke(frame);
                return found.getLineNumber() > 0 ? found.getFileName() + ":" + found.getLineNumber() : null;
            } catch (ReflectiveOperationException e) {
                return null;
            }
        }
    }
}

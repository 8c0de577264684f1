package armus;

import java.io.BufferedReader;
import java.io.File;
import java.io.FileInputStream;
import java.io.IOException;
import java.io.InputStreamReader;
import java.lang.instrument.Instrumentation;
import java.lang.management.ManagementFactory;
import java.lang.reflect.Field;
import java.lang.reflect.Method;
import java.nio.charset.StandardCharsets;
import java.util.ArrayList;
import java.util.Arrays;
import java.util.Collections;
import java.util.HashMap;
import java.util.HashSet;
import java.util.List;
import java.util.Map;
import java.util.Set;
import java.util.concurrent.CompletableFuture;
import java.util.concurrent.CountDownLatch;
import java.util.concurrent.CyclicBarrier;
import java.util.concurrent.FutureTask;
import java.util.concurrent.locks.AbstractOwnableSynchronizer;
import java.util.regex.Matcher;
import java.util.regex.Pattern;
import javax.management.JMException;
import javax.management.ObjectName;

/** What the library and the kernel keep for themselves. */
final class Inside {
    private static final int NAME = 15;    // so many bytes of a thread's name does the kernel keep

    private final Map<String, Field> fields = new HashMap<>();

    Inside(Instrumentation instrumentation) {
        try {
            open(instrumentation);
        } catch (ReflectiveOperationException e) {
            return;                                            // Java 8 has nothing to open
        }
    }

    /** Java 9 and later: the packages whose fields are read are opened to this class alone. */
    private void open(Instrumentation instrumentation) throws ReflectiveOperationException {
        Method moduleOf = Class.class.getMethod("getModule");
        Object base = moduleOf.invoke(Object.class);
        Set<Object> own = Collections.singleton(moduleOf.invoke(Inside.class));
        Map<String, Set<Object>> opens = new HashMap<>();
        for (String name : Arrays.asList("java.lang", "java.util.concurrent", "java.util.concurrent.locks", "jdk.internal.misc")) {
            opens.put(name, own);
        }
        for (Method method : Instrumentation.class.getMethods()) {
            if (method.getName().equals("redefineModule")) {
                method.invoke(instrumentation, base, Collections.emptySet(), Collections.emptyMap(), opens, Collections.emptySet(), Collections.emptyMap());
            }
        }
    }

    /** The value of a field of an object or, of a class, of the class; nothing where there is none. */
    Object value(Object of, String name) {
        Class<?> type = of instanceof Class ? (Class<?>) of : of.getClass();
        String key = type.getName() + " " + name;
        try {
            Field field = fields.get(key);
            for (Class<?> c = type; field == null && c != null; c = c.getSuperclass()) {
                for (Field f : c.getDeclaredFields()) {
                    if (f.getName().equals(name)) {
                        field = f;
                        field.setAccessible(true);
                        fields.put(key, field);
                        break;
                    }
                }
            }
            return field == null ? null : field.get(of instanceof Class ? null : of);
        } catch (ReflectiveOperationException | RuntimeException e) {
            return null;
        }
    }

    /** The value of a field that this class of the library declares, and not one of the program's that has the same name. */
    Object declared(Class<?> type, Object of, String name) {
        String key = "declared " + type.getName() + " " + name;
        try {
            Field field = fields.get(key);
            if (field == null) {
                field = type.getDeclaredField(name);
                field.setAccessible(true);
                fields.put(key, field);
            }
            return field.get(of);
        } catch (ReflectiveOperationException | RuntimeException e) {
            return null;
        }
    }

    /** The number by which the machine knows a thread, whatever the program's class says of it. */
    long id(Thread thread) {
        Object number = declared(Thread.class, thread, "tid");
        return number instanceof Long ? (Long) number : thread.getId();
    }

    /** Whether a thread has been started. */
    boolean hasBegun(Thread thread) {
        Object status = declared(Thread.class, thread, "threadStatus");
        if (status == null) {
            Object holder = declared(Thread.class, thread, "holder");
            status = holder == null ? null : value(holder, "threadStatus");
        }
        return !(status instanceof Integer) || (Integer) status != 0;
    }

    /** Whether a thread is interrupted, where the machine says so in a field: from Java 14 on. */
    boolean isInterrupted(Thread thread) {
        return Boolean.TRUE.equals(declared(Thread.class, thread, "interrupted"));
    }

    /** The thread that has a lock for itself, of those locks of the library that know it; nothing where there is none. */
    Thread holder(Object lock) {
        Object sync = declared(lock.getClass(), lock, "sync");
        return sync == null ? null : (Thread) declared(AbstractOwnableSynchronizer.class, sync, "exclusiveOwnerThread");
    }

    /** The object of a barrier that is another one for each turn. */
    Object generation(CyclicBarrier barrier) {
        return declared(CyclicBarrier.class, barrier, "generation");
    }

    boolean isBroken(Object generation) {
        return Boolean.TRUE.equals(value(generation, "broken"));
    }

    /** Whether the count of a latch is 0. */
    boolean isOpen(CountDownLatch latch) {
        Object sync = declared(CountDownLatch.class, latch, "sync");
        return sync == null || isOpen(sync);
    }

    boolean isDone(CompletableFuture<?> future) {
        return declared(CompletableFuture.class, future, "result") != null;
    }

    Object runner(FutureTask<?> future) {
        return declared(FutureTask.class, future, "runner");
    }

    boolean isDone(FutureTask<?> future) {
        Object state = declared(FutureTask.class, future, "state");
        return !(state instanceof Integer) || (Integer) state > 1;     // 0 is new, 1 is about to be done
    }

    /** Whether the count of a latch is 0. */
    boolean isOpen(Object sync) {
        Object state = value(sync, "state");
        return state instanceof Integer && (Integer) state == 0;
    }

    /** The hooks of the program's end: threads that a signal from outside may begin. */
    List<String> hooks() {
        List<String> names = new ArrayList<>();
        try {
            Object hooks = value(Class.forName("java.lang.ApplicationShutdownHooks"), "hooks");
            if (hooks instanceof Map) {
                for (Object hook : new ArrayList<>(((Map<?, ?>) hooks).keySet())) {
                    if (hook.getClass() == Thread.class || hook.getClass().getClassLoader() != null) {
                        names.add("hook-" + ((Thread) hook).getName());
                    }
                }
            }
        } catch (ClassNotFoundException | RuntimeException e) {
            return names;
        }
        return names;
    }

    /** Whether a signal from outside may run code of the program. */
    boolean hasSignalHandlers() {
        for (String name : Arrays.asList("jdk.internal.misc.Signal", "sun.misc.Signal")) {
            try {
                Object handlers = value(Class.forName(name), "handlers");
                if (handlers instanceof Map) {
                    for (Object handler : new ArrayList<>(((Map<?, ?>) handlers).values())) {
                        String kind = handler.getClass().getName();
                        if (!kind.startsWith("java.lang.Terminator") && !kind.endsWith("NativeHandler") && !kind.endsWith("NativeSignalHandler")) {
                            return true;
                        }
                    }
                }
            } catch (ClassNotFoundException | RuntimeException e) {
                continue;
            }
        }
        return false;
    }

    /** Whether the kernel knows the threads by their names. A Java 8 does not tell it. */
    static boolean namesAreKept() {
        return System.getenv("ARMUS_AS_JAVA_8") == null && "armus watcher".equals(firstLine(new File("/proc/thread-self/comm")));
    }

    /** The kernel's numbers of the threads, by the machine's own, as a dump of the machine has them. It stops all threads for a moment. */
    static Map<Long, String> numbersInKernel() {
        Map<Long, String> numbers = new HashMap<>();
        try {
            Object dump = ManagementFactory.getPlatformMBeanServer().invoke(new ObjectName("com.sun.management:type=DiagnosticCommand"), "threadPrint",
                new Object[] {new String[0]}, new String[] {String[].class.getName()});
            Matcher found = Pattern.compile("^\".*\" #(\\d+) .*\\bnid=(0x[0-9a-f]+|\\d+)", Pattern.MULTILINE).matcher(String.valueOf(dump));
            while (found.find()) {
                numbers.put(Long.valueOf(found.group(1)), Long.decode(found.group(2)).toString());
            }
        } catch (JMException | RuntimeException e) {
            return numbers;
        }
        return numbers;
    }

    private static String firstLine(File file) {
        try (BufferedReader reader = new BufferedReader(new InputStreamReader(new FileInputStream(file), StandardCharsets.ISO_8859_1), 512)) {
            return reader.readLine();
        } catch (IOException e) {
            return null;
        }
    }

    static String process() {
        String name = ManagementFactory.getRuntimeMXBean().getName();
        return name.substring(0, name.indexOf('@'));
    }

    static String kernelName(long id, Thread thread) {
        byte[] bytes = thread.getName().getBytes(StandardCharsets.UTF_8);
        return id == 1 ? "java" : new String(bytes, 0, Math.min(NAME, bytes.length), StandardCharsets.ISO_8859_1);
    }

    /** The threads that the kernel lets run, by its names and its numbers of them: a thread that was woken and has not come to run yet is one. */
    static Set<String> running() {
        Set<String> found = new HashSet<>();
        File[] tasks = new File("/proc/self/task").listFiles();
        for (File task : tasks == null ? new File[0] : tasks) {
            String line = firstLine(new File(task, "stat"));   // nothing where it has ended
            int close = line == null ? -1 : line.lastIndexOf(')');
            if (close > 0 && close + 2 < line.length() && "RD".indexOf(line.charAt(close + 2)) >= 0) {
                found.add(line.substring(line.indexOf('(') + 1, close));
                found.add(task.getName());
            }
        }
        return found;
    }
}

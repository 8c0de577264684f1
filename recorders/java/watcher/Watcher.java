package armus;

import java.io.IOException;
import java.lang.instrument.Instrumentation;
import java.lang.management.ManagementFactory;
import java.lang.management.ThreadInfo;
import java.lang.management.ThreadMXBean;
import java.util.ArrayList;
import java.util.Arrays;
import java.util.Collections;
import java.util.HashMap;
import java.util.HashSet;
import java.util.LinkedHashMap;
import java.util.List;
import java.util.Map;
import java.util.Set;
import java.util.concurrent.FutureTask;
import java.util.concurrent.locks.LockSupport;

/** Watches a running Java program, in which nothing is changed: every 50 ms a daemon thread asks the machine at what each thread is parked or by what it is blocked, and
 * announces those that stood in the same wait at two looks. Begins with the program (-javaagent) or in one that already runs (armus-attach). */
public final class Watcher implements Runnable {
    private static final int PERIOD = 50;
    private static final int LONGEST = 1000;
    private static final int FRAMES = 64;
    private static final Set<String> OWN_THREADS = new HashSet<>(Arrays.asList("Reference Handler", "Finalizer", "Signal Dispatcher", "Attach Listener", "Common-Cleaner",
        "Notification Thread", "Service Thread", "DestroyJavaVM", "Monitor Deflation Thread", "armus watcher"));

    private final Lines lines;
    private final Announcer announcer;
    private final Inside inside;
    private final ThreadGroup root;
    private ThreadMXBean threads;
    private Map<Long, String> stoodBefore = new HashMap<>();
    private final Map<Long, Wait> known = new HashMap<>();
    private boolean virtualThreads;
    private boolean namesAreKept;
    private Map<Long, Thread> there = Collections.emptyMap();
    private Map<Long, String> inKernel = new HashMap<>();

    private Watcher(Lines lines, Inside inside) {
        this.lines = lines;
        this.inside = inside;
        announcer = new Announcer(lines);
        ThreadGroup group = Thread.currentThread().getThreadGroup();
        while (group.getParent() != null) {
            group = group.getParent();
        }
        root = group;
    }

    public static void premain(String words, Instrumentation instrumentation) {
        String address = words != null && !words.isEmpty() ? words : System.getenv("ARMUS_SOCKET");
        if (address == null) {
            return;
        }
        Thread thread = new Thread(() -> {
            try {
                Inside inside = new Inside(instrumentation);
                new Watcher(new Lines(address, Inside.process()), inside).run();
            } catch (Throwable e) {
                debug(e);
            }
        }, "armus watcher");
        thread.setDaemon(true);
        thread.start();
    }

    public static void agentmain(String words, Instrumentation instrumentation) {
        premain(words, instrumentation);
    }

    /** Nothing of the recorder reaches the program. */
    private static void debug(Throwable e) {
        try {
            if (System.getenv("ARMUS_DEBUG") != null) {
                e.printStackTrace();
            }
        } catch (SecurityException refused) {
            return;                                            // the program lets nobody read the environment
        }
    }

    @Override
    public void run() {
        try {
            namesAreKept = Inside.namesAreKept();
            long pause = PERIOD;
            while (true) {
                Thread.sleep(pause);
                long begun = processorTime();
                look();
                long took = begun == 0 ? 0 : processorTime() - begun;
                pause = Math.min(LONGEST, Math.max(PERIOD, 25 * took / 1_000_000));
            }
        } catch (InterruptedException | IOException e) {
            debug(e);
        }
        lines.close();
    }

    /** What this thread has taken of a processor, in nanoseconds; the first look, which wakes the machine's own beans, does not count. */
    private long processorTime() {
        return threads != null && threads.isCurrentThreadCpuTimeSupported() ? threads.getCurrentThreadCpuTime() : 0;
    }

    /** Whether this is a thread of the machine, or the watcher. One of the program may have the same name, but it is in a group of its own, or runs code. */
    private boolean isOwn(Thread thread) {
        String name = thread.getName();
        if (!OWN_THREADS.contains(name)) {
            return false;
        }
        if (name.equals("DestroyJavaVM")) {
            return thread.getStackTrace().length == 0;
        }
        ThreadGroup group = thread.getThreadGroup();
        return name.equals("armus watcher") || group == null || group == root || group.getName().equals("InnocuousThreadGroup");
    }

    private Map<Long, Thread> present() {
        Thread[] found = new Thread[root.activeCount() * 2 + 16];
        int count = root.enumerate(found);
        while (count == found.length) {
            found = new Thread[count * 2];
            count = root.enumerate(found);
        }
        Map<Long, Thread> present = new LinkedHashMap<>();
        for (int i = 0; i < count; i++) {
            if (!isOwn(found[i])) {
                present.put(inside.id(found[i]), found[i]);
            }
        }
        for (Map.Entry<Long, Thread> entry : there.entrySet()) {
            if (entry.getValue().isAlive()) {
                present.putIfAbsent(entry.getKey(), entry.getValue());   // it left its group, and has not ended yet
            }
        }
        return present;
    }

    /** Whether daemons alone are left, so that the machine ends. */
    private static boolean isOver(Map<Long, Thread> present) {
        for (Thread thread : present.values()) {
            if (!thread.isDaemon()) {
                return false;
            }
        }
        return true;
    }

    private static boolean mayWait(Thread thread) {
        Thread.State state = thread.getState();
        return state == Thread.State.WAITING || state == Thread.State.BLOCKED;
    }

    private void look() throws IOException {
        Map<Long, Thread> present = present();                 // who is not here has ended before anybody is looked at
        if (isOver(present)) {
            return;
        }
        there = present;
        List<Long> asleep = new ArrayList<>();
        for (Map.Entry<Long, Thread> entry : present.entrySet()) {
            if (mayWait(entry.getValue())) {
                asleep.add(entry.getKey());
            }
        }
        if (threads == null) {
            if (asleep.isEmpty()) {
                return;                                        // nobody waits yet: the machine's own threads need not begin
            }
            threads = ManagementFactory.getThreadMXBean();
        }
        Map<Long, String> stands = new HashMap<>();
        List<Long> fresh = new ArrayList<>();
        for (ThreadInfo info : infos(asleep, 0)) {
            String mark = mark(info);
            if (mark != null) {
                long id = info.getThreadId();
                stands.put(id, mark);
                Wait wait = known.get(id);
                if (wait != null && !wait.mark.equals(mark)) {
                    known.remove(id);
                }
                if (!known.containsKey(id) && mark.equals(stoodBefore.get(id))) {
                    fresh.add(id);
                }
            }
        }
        known.keySet().retainAll(stands.keySet());
        for (ThreadInfo info : infos(fresh, FRAMES)) {
            if (info != null && stands.get(info.getThreadId()).equals(mark(info))) {
                known.put(info.getThreadId(), waitOf(info, present));
            }
        }
        stoodBefore = stands;
        tell(present, stands);
    }

    private ThreadInfo[] infos(List<Long> ids, int frames) {
        long[] numbers = new long[ids.size()];
        for (int i = 0; i < numbers.length; i++) {
            numbers[i] = ids.get(i);
        }
        return numbers.length == 0 ? new ThreadInfo[0] : threads.getThreadInfo(numbers, frames);
    }

    /** The same at two looks where the thread stood in the same wait, at the same object with the same owner, all the time between. */
    private static String mark(ThreadInfo info) {
        if (info == null || info.getThreadState() != Thread.State.WAITING && info.getThreadState() != Thread.State.BLOCKED) {
            return null;
        }
        return info.getWaitedCount() + " " + info.getBlockedCount() + " " + info.getLockName() + " " + info.getLockOwnerId();
    }

    /** Who stands is announced, but not who is only on its way out of the wait: the kernel lets that thread run, or the object says that the wait is over. */
    private void tell(Map<Long, Thread> before, Map<Long, String> stands) throws IOException {
        Map<Long, Wait> standing = new LinkedHashMap<>();
        if (!namesAreKept && !inKernel.keySet().containsAll(known.keySet())) {
            inKernel = Inside.numbersInKernel();
        }
        Set<String> running = known.isEmpty() ? Collections.<String>emptySet() : Inside.running();
        for (Map.Entry<Long, Wait> entry : known.entrySet()) {
            Thread thread = before.get(entry.getKey());
            Wait wait = entry.getValue();
            if (thread != null && !wait.isOver() && (wait.isOwned || sleeps(entry.getKey(), thread, running))) {
                wait.refresh(before);
                standing.put(entry.getKey(), wait);
            }
        }
        Map<Long, Thread> present = new LinkedHashMap<>(before);
        present.putAll(present());                             // who began meanwhile runs
        for (Thread thread : present.values()) {
            virtualThreads |= thread.getClass().getName().equals("jdk.internal.misc.CarrierThread");
        }
        List<String> others = new ArrayList<>();
        if (!standing.isEmpty()) {
            others.addAll(inside.hooks());
            if (virtualThreads) {
                others.add("virtual-threads");
            }
            if (inside.hasSignalHandlers()) {
                others.add("signal-handlers");
            }
        }
        announcer.announce(present, others, standing);
        lines.handOver();
    }

    private boolean sleeps(Long id, Thread thread, Set<String> running) {
        return namesAreKept ? !running.contains(Inside.kernelName(id, thread)) : inKernel.containsKey(id) && !running.contains(inKernel.get(id));
    }

    private Wait waitOf(ThreadInfo info, Map<Long, Thread> present) {
        Thread thread = present.get(info.getThreadId());
        StackTraceElement[] frames = info.getStackTrace();
        Wait wait = new Wait(mark(info), place(frames));
        if (info.getLockOwnerId() >= 0) {
            wait.of(simple(info.getLockInfo().getClassName()), info.getLockName(), info.getLockOwnerId());
            return wait;
        }
        Object blocker = info.getThreadState() == Thread.State.WAITING && isParked(frames) ? LockSupport.getBlocker(thread) : null;
        if (blocker == null) {
            Thread joined = joined(info, frames, present);
            if (joined != null) {
                wait.end(joined, inside.id(joined));
            } else {
                wait.any(isParked(frames) ? "park" : info.getLockInfo() == null ? "wait" : simple(info.getLockInfo().getClassName()), String.valueOf(info.getLockName()));
            }
            return wait;
        }
        if (blocker instanceof FutureTask) {
            wait.future(inside, (FutureTask<?>) blocker);
        } else if (blocker.getClass().getName().equals("java.util.concurrent.Phaser$QNode")) {
            wait.phaser(inside, blocker);
        } else if (blocker.getClass().getName().startsWith("java.util.concurrent.CountDownLatch$")) {
            wait.latch(inside, blocker);
        } else {
            wait.any(kind(blocker, frames), blocker.getClass().getName() + "@" + System.identityHashCode(blocker));
        }
        return wait;
    }

    private static boolean isParked(StackTraceElement[] frames) {
        return frames.length > 0 && frames[0].getMethodName().startsWith("park");
    }

    private static Thread joined(ThreadInfo info, StackTraceElement[] frames, Map<Long, Thread> present) {
        for (int i = 0; i < Math.min(4, frames.length); i++) {
            if (frames[i].getClassName().equals("java.lang.Thread") && frames[i].getMethodName().equals("join") && info.getLockInfo() != null) {
                for (Thread thread : present.values()) {
                    if (System.identityHashCode(thread) == info.getLockInfo().getIdentityHashCode() && thread.isAlive()) {
                        return thread;
                    }
                }
            }
        }
        return null;
    }

    /** The class by which the program knows what it waits at: the innermost one of java.util.concurrent that is no lock's part; of the program's own conditions, that class. */
    private static String kind(Object blocker, StackTraceElement[] frames) {
        String name = blocker.getClass().getName();
        if (name.startsWith("java.util.concurrent.locks.AbstractQueued")) {
            for (StackTraceElement frame : frames) {
                String at = frame.getClassName();
                if (!at.startsWith("java.util.concurrent.locks.") && !at.startsWith("java.util.concurrent.ForkJoinPool") && !at.contains(".misc.Unsafe")) {
                    return at.startsWith("java.util.concurrent.") ? simple(at) : "Condition";
                }
            }
            return "Condition";
        }
        return simple(name);
    }

    /** CyclicBarrier of java.util.concurrent.CyclicBarrier, ReentrantLock of java.util.concurrent.locks.ReentrantLock$NonfairSync. */
    static String simple(String name) {
        String last = name.substring(name.lastIndexOf('.') + 1);
        int inner = last.indexOf('$');
        return inner > 0 && name.startsWith("java.") ? last.substring(0, inner) : last.replace('$', '.');
    }

    static String place(StackTraceElement[] frames) {
        for (StackTraceElement frame : frames) {
            String name = frame.getClassName();
            if (!name.startsWith("java.") && !name.startsWith("javax.") && !name.startsWith("jdk.") && !name.startsWith("sun.") && !name.startsWith("com.sun.") && frame.getLineNumber() > 0) {
                return frame.getFileName() + ":" + frame.getLineNumber();
            }
        }
        if (frames.length == 0) {
            return "Thread.java";
        }
        StackTraceElement last = frames[frames.length - 1];
        return last.getFileName() + ":" + Math.max(1, last.getLineNumber());
    }
}

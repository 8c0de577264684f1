package armus;

import java.io.ByteArrayOutputStream;
import java.io.IOException;
import java.io.InputStream;
import java.util.Arrays;
import java.util.HashMap;
import java.util.HashSet;
import java.util.Map;
import java.util.Set;

/** The listed methods: those that may wait for others, and those by which others go on. For each one Operations has a static method of the same name, whose first argument
 * is the object. */
final class Calls {
    private static final String LIBRARY = "java/util/concurrent/";
    private static final String TIME = "JLjava/util/concurrent/TimeUnit;";
    private static final int DEEPEST = 50;
    /** The classes that have a method, by its name and its arguments. */
    private static final Map<String, Set<String>> LISTED = new HashMap<>();

    static {
        list(LIBRARY + "CyclicBarrier", "await()I", "await(" + TIME + ")I");
        list(LIBRARY + "Phaser", "arrive()I", "arriveAndDeregister()I", "arriveAndAwaitAdvance()I", "awaitAdvance(I)I", "awaitAdvanceInterruptibly(I)I");
        list(LIBRARY + "CountDownLatch", "await()V", "countDown()V");
        list(LIBRARY + "CompletableFuture", "get()Ljava/lang/Object;", "join()Ljava/lang/Object;");
        list("java/lang/Thread", "join()V", "join(J)V", "interrupt()V");
        for (String future : Arrays.asList("Future", "RunnableFuture", "ScheduledFuture", "RunnableScheduledFuture", "FutureTask")) {
            list(LIBRARY + future, "get()Ljava/lang/Object;");
        }
        for (String lock : Arrays.asList("Lock", "ReentrantLock", "ReentrantReadWriteLock$ReadLock", "ReentrantReadWriteLock$WriteLock")) {
            list(LIBRARY + "locks/" + lock, "lock()V", "lockInterruptibly()V");
        }
    }

    /** The loader of the class whose calls are looked at. */
    private final ClassLoader loader;

    Calls(ClassLoader loader) {
        this.loader = loader;
    }

    private static void list(String owner, String... calls) {
        for (String call : calls) {
            LISTED.computeIfAbsent(call, c -> new HashSet<>()).add(owner);
        }
    }

    /** The listed class whose method this call is: owner itself, or a class above it; nothing where the call is none of a listed method. */
    String owner(String owner, String call) throws IOException {
        Set<String> listed = LISTED.get(call);
        if (listed == null || listed.contains(owner)) {
            return listed == null ? null : owner;
        }
        String above = owner;
        for (int i = 0; i < DEEPEST && above != null && !above.startsWith("["); i++) {
            above = above(above);
            if (listed.contains(above)) {
                return above;
            }
        }
        return null;
    }

    /** The class above a class, as its file has it. Only of loaders of the machine, whose search runs no code of the program. */
    private String above(String name) throws IOException {
        String kind = loader.getClass().getName();
        if (!kind.startsWith("jdk.internal.loader.") && !kind.startsWith("sun.misc.Launcher$") && loader.getClass() != java.net.URLClassLoader.class) {
            return null;
        }
        try (InputStream in = loader.getResourceAsStream(name + ".class")) {
            if (in == null) {
                return null;
            }
            Bytes bytes = new Bytes(all(in));
            ConstantPool constants = new ConstantPool(bytes);
            int above = bytes.two(constants.end() + 4);
            return above == 0 ? null : constants.className(above);
        }
    }

    private static byte[] all(InputStream in) throws IOException {
        ByteArrayOutputStream out = new ByteArrayOutputStream();
        byte[] part = new byte[8192];
        for (int got = in.read(part); got >= 0; got = in.read(part)) {
            out.write(part, 0, got);
        }
        return out.toByteArray();
    }
}

package armus;

import java.io.IOException;
import java.nio.ByteBuffer;
import java.nio.channels.SelectionKey;
import java.nio.channels.Selector;
import java.util.Set;
import java.util.concurrent.ConcurrentHashMap;
import java.util.concurrent.locks.ReentrantLock;

/** Reads the answers and hands them out. One thread at a time reads: one of those that wait for an answer, and for those who do not wait, from time to time, a thread of the
 * recorder. So an answer wakes the thread that asked, and no other one. */
final class Answers implements Runnable {
    private static final int PERIOD = 50;            // milliseconds
    private static final long AT_ONCE = 60_000;      // nanoseconds; so long an answer is looked for, before the thread sleeps until it comes
    private static final boolean SPINS = Runtime.getRuntime().availableProcessors() > 1;

    private final Recorder recorder;
    private final Selector selector;
    private final ReentrantLock reading = new ReentrantLock();
    private final Set<Task> waiting = ConcurrentHashMap.newKeySet();
    private final ByteBuffer bytes = ByteBuffer.allocate(65536);
    private final StringBuilder kept = new StringBuilder();

    Answers(Recorder recorder) throws IOException {
        this.recorder = recorder;
        selector = Selector.open();
        recorder.lines().channel.register(selector, SelectionKey.OP_READ);
    }

    void start() {
        ThreadGroup group = Thread.currentThread().getThreadGroup();
        while (group.getParent() != null) {
            group = group.getParent();
        }
        Thread thread = new Thread(group, this, "armus guard");
        thread.setDaemon(true);
        thread.start();
    }

    @Override
    public void run() {
        try {
            while (Recorder.on == recorder) {
                Thread.sleep(PERIOD);
                if (reading.tryLock()) {
                    try {
                        read(0);
                    } finally {
                        reading.unlock();
                    }
                    hasRead();
                }
                recorder.look();
            }
        } catch (IOException | InterruptedException | RuntimeException | Error e) {
            Operations.debug(e);
            recorder.off("no answer comes any more");
        }
    }

    /** Waits for the answer to this question of the current thread, which is its last one; false where it does not come in time. An interrupt is kept. */
    boolean await(Task task, int question, long longest) {
        boolean interrupted = Thread.interrupted();
        long end = System.nanoTime() + longest * 1_000_000;
        waiting.add(task);
        try {
            for (long left = longest; left > 0 && !task.isAnswered(question) && Recorder.on == recorder; left = (end - System.nanoTime()) / 1_000_000) {
                task.calm();
                if (reading.tryLock()) {
                    readFor(task, question, left);
                } else {
                    interrupted |= task.pause(question, left);
                }
                interrupted |= Thread.interrupted();
            }
        } catch (IOException e) {
            recorder.off("no answer comes any more");
        } finally {
            waiting.remove(task);
            hasRead();                                            // it may have been the one that was woken to read
        }
        if (interrupted) {
            Thread.currentThread().interrupt();
        }
        return task.isAnswered(question);
    }

    private void readFor(Task task, int question, long longest) throws IOException {
        try {
            if (!task.isAnswered(question)) {
                read(longest);
            }
        } finally {
            reading.unlock();
            waiting.remove(task);
            hasRead();
            waiting.add(task);
        }
    }

    /** Another one who waits may read now. */
    private void hasRead() {
        for (Task task : waiting) {
            task.wake();
            return;
        }
    }

    /** Reads what is there, once something is, or this many milliseconds have passed. */
    private void read(long longest) throws IOException {
        int got = readAtOnce(longest > 0 && SPINS ? AT_ONCE : 0);
        if (got == 0 && longest > 0) {
            selector.select(longest);
            selector.selectedKeys().clear();
            got = recorder.lines().channel.read(bytes);
        }
        bytes.flip();
        while (bytes.hasRemaining()) {
            char c = (char) (bytes.get() & 255);
            if (c == '\n') {
                take(kept.toString());
                kept.setLength(0);
            } else {
                kept.append(c);
            }
        }
        bytes.clear();
        if (got < 0) {
            throw new IOException("the other side is closed");
        }
    }

    /** Reads what is there, or comes in so many nanoseconds. */
    private int readAtOnce(long longest) throws IOException {
        long begun = System.nanoTime();
        int got = recorder.lines().channel.read(bytes);
        while (got == 0 && System.nanoTime() - begun < longest) {
            got = recorder.lines().channel.read(bytes);
        }
        return got;
    }

    private void take(String line) {
        String[] words = line.split(" ", 3);
        if (words[0].equals("wait") && words.length == 2) {
            recorder.tasks().answer(words[1], null);
        } else if (words[0].equals("refuse") && words.length == 3) {
            recorder.tasks().answer(words[1].substring(0, words[1].length() - 1), words[2]);
        } else if (words[0].equals("fault")) {
            recorder.off("a line was at fault");
        } else if (words[0].equals("off")) {
            recorder.off(null);
        }
    }
}

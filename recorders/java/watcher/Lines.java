package armus;

import java.io.IOException;
import java.net.InetSocketAddress;
import java.net.SocketAddress;
import java.nio.ByteBuffer;
import java.nio.channels.SocketChannel;
import java.nio.charset.StandardCharsets;

/** The lines of one look, handed over at once. What cannot be written ends the recorder. */
final class Lines {
    private static final int LONGEST = 511;

    final String process;
    /** Does not wait where it is read or written. */
    final SocketChannel channel;
    private final StringBuilder text = new StringBuilder();

    /** address: the path of a Unix socket, and behind '|' a host and behind another '|' its port, for a Java without Unix sockets. */
    Lines(String address, String process) throws IOException {
        this.process = process;
        String[] parts = address.split("\\|");
        SocketChannel found = System.getenv("ARMUS_AS_JAVA_8") == null ? unix(parts[0]) : null;
        if (found == null && parts.length > 2) {
            found = SocketChannel.open(new InetSocketAddress(parts[1], Integer.parseInt(parts[2])));
            say("# word " + (parts.length > 3 ? parts[3] : System.getenv("ARMUS_WORD")));
        }
        if (found == null) {
            throw new IOException("no way to " + address);
        }
        channel = found;
        channel.configureBlocking(false);
        say("# process " + process + "/");
    }

    private static SocketChannel unix(String path) {
        try {
            Class<?> addresses = Class.forName("java.net.UnixDomainSocketAddress");
            SocketAddress to = (SocketAddress) addresses.getMethod("of", String.class).invoke(null, path);
            return SocketChannel.open(to);
        } catch (ReflectiveOperationException | IOException e) {
            return null;
        }
    }

    void say(String line) {
        if (line.length() <= LONGEST) {
            text.append(line).append('\n');
        }
    }

    void handOver() throws IOException {
        handOver(0);
    }

    /** Waits at most so many milliseconds for somebody who reads. An interrupt is kept. */
    void handOver(long longest) throws IOException {
        ByteBuffer bytes = ByteBuffer.wrap(text.toString().getBytes(StandardCharsets.ISO_8859_1));
        text.setLength(0);
        long end = System.nanoTime() + longest * 1_000_000;
        boolean interrupted = longest > 0 && Thread.interrupted();       // some machines close what an interrupted thread writes to
        try {
            while (bytes.hasRemaining()) {
                if (channel.write(bytes) == 0) {
                    if (System.nanoTime() >= end) {
                        throw new IOException("nobody reads");
                    }
                    interrupted |= pause();
                }
            }
        } finally {
            if (interrupted) {
                Thread.currentThread().interrupt();
            }
        }
    }

    private static boolean pause() {
        try {
            Thread.sleep(1);
            return false;
        } catch (InterruptedException e) {
            return true;
        }
    }

    void close() {
        try {
            channel.close();
        } catch (IOException e) {
            return;
        }
    }
}

package armus;

import java.io.File;
import java.io.IOException;
import java.lang.instrument.Instrumentation;

/** Begins with the program, where armus-run --guard starts it. */
public final class Agent {
    private Agent() {
    }

    public static void premain(String words, Instrumentation instrumentation) {
        String address = System.getenv("ARMUS_SOCKET");
        if (address == null || System.getenv("ARMUS_GUARD") == null) {
            return;
        }
        try {
            new Recorder(new Lines(address, process()), new Inside(instrumentation)).begin();
            instrumentation.addTransformer(new Transformer());
        } catch (IOException | RuntimeException e) {
            Recorder.on = null;
            Recorder.tell(e.getMessage() + ": nothing is refused; the program runs");
        }
    }

    private static String process() throws IOException {
        String name = new File("/proc/self").getCanonicalFile().getName();
        return name.matches("\\d+") ? name : Inside.process();
    }
}

package armus;

import java.lang.reflect.Method;

/** Loads the watcher into a Java program that already runs: Attach PROCESS JAR ADDRESS. */
public final class Attach {
    private Attach() {
    }

    public static void main(String[] words) throws Exception {
        Class<?> machines = Class.forName("com.sun.tools.attach.VirtualMachine");
        Object machine = machines.getMethod("attach", String.class).invoke(null, words[0]);
        Method load = machines.getMethod("loadAgent", String.class, String.class);
        load.invoke(machine, words[1], words[2]);
        machines.getMethod("detach").invoke(machine);
    }
}

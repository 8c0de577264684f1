package armus;

import java.lang.instrument.ClassFileTransformer;
import java.security.CodeSource;
import java.security.ProtectionDomain;

/** Rewrites the classes of the program as they are loaded. Those of the machine stay as they are, and so do those whose loader does not find the recorder. */
final class Transformer implements ClassFileTransformer {
    private final Identities<Boolean> loaders = new Identities<>();
    private final ClassLoader platform = ClassLoader.getSystemClassLoader().getParent();

    @Override
    public byte[] transform(ClassLoader loader, String name, Class<?> before, ProtectionDomain domain, byte[] bytes) {
        try {
            if (loader == null || loader == platform || name == null || name.startsWith("armus/") || isOfMachine(domain) || !finds(loader)) {
                return null;
            }
            return new Rewriter(bytes.clone(), new Calls(loader)).rewritten();
        } catch (Throwable e) {
            Recorder.tell(name + " is left as it is: " + e.getMessage());
            return null;
        }
    }

    private static boolean isOfMachine(ProtectionDomain domain) {
        CodeSource source = domain == null ? null : domain.getCodeSource();
        return source != null && source.getLocation() != null && "jrt".equals(source.getLocation().getProtocol());
    }

    /** Whether a class of this loader comes to the recorder by its name. */
    private boolean finds(ClassLoader loader) {
        if (loader == ClassLoader.getSystemClassLoader()) {
            return true;
        }
        synchronized (loaders) {
            Boolean known = loaders.get(loader);
            if (known != null) {
                return known;
            }
            loaders.put(loader, false);                           // what it loads meanwhile stays as it is
        }
        boolean found = isOurs(loader);
        synchronized (loaders) {
            loaders.put(loader, found);
        }
        return found;
    }

    private static boolean isOurs(ClassLoader loader) {
        try {
            return Class.forName("armus.Operations", false, loader) == Operations.class;
        } catch (Throwable e) {
            return false;
        }
    }
}

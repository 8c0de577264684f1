package armus;

import java.lang.ref.Reference;
import java.lang.ref.ReferenceQueue;
import java.lang.ref.WeakReference;
import java.util.ArrayList;
import java.util.HashMap;
import java.util.List;
import java.util.Map;

/** What is known of objects as long as they are there. No method of an object is called. Used by one thread at a time. */
final class Identities<V> {
    private static final class Key extends WeakReference<Object> {
        private final int hash;

        Key(Object object, ReferenceQueue<Object> gone) {
            super(object, gone);
            hash = System.identityHashCode(object);
        }

        @Override
        public int hashCode() {
            return hash;
        }

        @Override
        public boolean equals(Object other) {
            return this == other;                                 // an object has one key
        }
    }

    /** What finds the key of an object. */
    private static final class Probe {
        private final Object object;

        Probe(Object object) {
            this.object = object;
        }

        @Override
        public int hashCode() {
            return System.identityHashCode(object);
        }

        @Override
        public boolean equals(Object other) {
            return other instanceof Key && ((Key) other).get() == object;
        }
    }

    private final Map<Key, V> values = new HashMap<>();
    private final ReferenceQueue<Object> gone = new ReferenceQueue<>();

    V get(Object object) {
        return object == null ? null : values.get(new Probe(object));
    }

    void put(Object object, V value) {
        values.remove(new Probe(object));
        values.put(new Key(object, gone), value);
    }

    /** Those of objects that are gone, which are forgotten. */
    List<V> collected() {
        List<V> found = new ArrayList<>();
        for (Reference<?> key = gone.poll(); key != null; key = gone.poll()) {
            V value = values.remove(key);
            if (value != null) {
                found.add(value);
            }
        }
        return found;
    }
}

package armus;

import java.lang.ref.WeakReference;
import java.util.concurrent.FutureTask;

/** The objects that know themselves who has to act: locks, futures that a thread runs, and threads. */
final class Owners {
    private Owners() {
    }

    /** The short name of what is waited for, as the messages have it. */
    static String kind(Object object) {
        return object instanceof Thread ? "end-of-" + ((Thread) object).getName() : object instanceof FutureTask ? "Future" : Places.simple(object.getClass().getName());
    }

    static Owned of(Object object, String name, Inside inside) {
        return object instanceof Thread ? new EndOf((Thread) object, name) : object instanceof FutureTask ? new RunBy((FutureTask<?>) object, name, inside)
            : new HeldBy(object, name, inside);
    }

    private static final class HeldBy extends Owned {
        private final WeakReference<Object> lock;
        private final Inside inside;

        HeldBy(Object lock, String name, Inside inside) {
            super(name);
            this.lock = new WeakReference<>(lock);
            this.inside = inside;
        }

        @Override
        Thread keeper() {
            Object own = lock.get();
            return own == null ? null : inside.holder(own);
        }

        @Override
        boolean isTaken() {
            return true;
        }
    }

    private static final class RunBy extends Owned {
        private final WeakReference<FutureTask<?>> future;
        private final Inside inside;

        RunBy(FutureTask<?> future, String name, Inside inside) {
            super(name);
            this.future = new WeakReference<>(future);
            this.inside = inside;
        }

        @Override
        Thread keeper() {
            FutureTask<?> own = future.get();
            Object runner = own == null || inside.isDone(own) ? null : inside.runner(own);
            return runner instanceof Thread ? (Thread) runner : null;
        }

        @Override
        boolean isTaken() {
            return false;
        }
    }

    private static final class EndOf extends Owned {
        private final WeakReference<Thread> thread;

        EndOf(Thread thread, String name) {
            super(name);
            this.thread = new WeakReference<>(thread);
        }

        @Override
        Thread keeper() {
            Thread own = thread.get();
            return own == null || !own.isAlive() ? null : own;
        }

        @Override
        boolean isTaken() {
            return false;
        }
    }
}

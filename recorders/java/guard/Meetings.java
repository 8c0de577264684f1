package armus;

import java.lang.ref.WeakReference;
import java.util.concurrent.CompletableFuture;
import java.util.concurrent.CountDownLatch;
import java.util.concurrent.CyclicBarrier;
import java.util.concurrent.Phaser;

/** The objects of which a program may say who has to come. */
final class Meetings {
    private Meetings() {
    }

    /** The short name of the class as the messages have it, or nothing where it is no such object. */
    static String kind(Object object) {
        return object instanceof CyclicBarrier ? "CyclicBarrier" : object instanceof Phaser ? "Phaser" : object instanceof CountDownLatch ? "CountDownLatch"
            : object instanceof CompletableFuture ? "CompletableFuture" : null;
    }

    static Meeting of(Object object, String name, Inside inside) {
        return object instanceof CyclicBarrier ? new OfBarrier((CyclicBarrier) object, name, inside) : object instanceof Phaser ? new OfPhaser((Phaser) object, name)
            : new Once(object, name, inside);
    }

    private static final class OfBarrier extends Meeting {
        private final WeakReference<CyclicBarrier> barrier;
        private final int parties;
        private final Inside inside;
        private Object generation;

        OfBarrier(CyclicBarrier barrier, String name, Inside inside) {
            super(name);
            this.barrier = new WeakReference<>(barrier);
            parties = barrier.getParties();
            this.inside = inside;
            generation = this;
        }

        @Override
        Object mark() {
            CyclicBarrier own = barrier.get();
            Object now = own == null ? null : inside.generation(own);
            generation = now == null ? generation : now;
            return generation;
        }

        @Override
        boolean isOpen(Object mark) {
            return mark == this || inside.isBroken(mark);
        }

        @Override
        long turn(Object mark, long before) {
            return before + 1;
        }

        @Override
        int parties() {
            return parties;
        }
    }

    private static final class OfPhaser extends Meeting {
        private final WeakReference<Phaser> phaser;
        private int phase = -1;

        OfPhaser(Phaser phaser, String name) {
            super(name);
            this.phaser = new WeakReference<>(phaser);
        }

        @Override
        Object mark() {
            Phaser own = phaser.get();
            phase = own == null ? phase : own.getPhase();
            return phase;
        }

        @Override
        boolean isOpen(Object mark) {
            return (Integer) mark < 0;
        }

        @Override
        long turn(Object mark, long before) {
            return (Integer) mark < 0 ? before : (Integer) mark;
        }

        @Override
        int parties() {
            return 0;
        }
    }

    /** A latch or a future: it has one turn. */
    private static final class Once extends Meeting {
        private final WeakReference<Object> object;
        private final Inside inside;

        Once(Object object, String name, Inside inside) {
            super(name);
            this.object = new WeakReference<>(object);
            this.inside = inside;
        }

        @Override
        Object mark() {
            return this;
        }

        @Override
        boolean isOpen(Object mark) {
            Object own = object.get();
            return own == null || (own instanceof CountDownLatch ? inside.isOpen((CountDownLatch) own) : inside.isDone((CompletableFuture<?>) own));
        }

        @Override
        long turn(Object mark, long before) {
            return 0;
        }

        @Override
        int parties() {
            return 0;
        }
    }
}

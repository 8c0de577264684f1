import armus.Members;
import java.util.concurrent.BrokenBarrierException;
import java.util.concurrent.CountDownLatch;
import java.util.concurrent.CyclicBarrier;
import java.util.concurrent.Phaser;
import java.util.concurrent.TimeUnit;
import java.util.concurrent.TimeoutException;

/** Comes to its end, and nobody is refused: a barrier is broken by an interrupt, by a time limit and by a reset, and met again; a phaser is left, joined and terminated; a
 * barrier's action and a phaser's wait for others themselves; and one thread comes to a barrier of which it never said so. */
public class Breaks {
    private static final CyclicBarrier TWO = new CyclicBarrier(2);

    public static void main(String[] words) throws Exception {
        interrupted();
        timed();
        meets("behind a reset");
        three();
        acts();
        phaser();
        stranger();
        System.out.println("end");
    }

    static Thread party(String name, Both.Side side) {
        Thread thread = Both.thread(name, side);
        Members.member(thread, TWO);
        return thread;
    }

    static void interrupted() throws Exception {
        Members.member(TWO);
        Thread party = party("interrupted", () -> {
            try {
                TWO.await();
            } catch (InterruptedException e) {
                System.out.println("interrupted");
            }
        });
        party.start();
        while (TWO.getNumberWaiting() == 0) {
            Thread.yield();
        }
        party.interrupt();
        party.join();
        try {
            TWO.await();
        } catch (BrokenBarrierException e) {
            System.out.println("broken");
        }
        TWO.reset();
    }

    static void timed() throws Exception {
        try {
            TWO.await(1, TimeUnit.MILLISECONDS);
        } catch (TimeoutException e) {
            System.out.println("too late");
        }
        TWO.reset();
    }

    static void meets(String when) throws Exception {
        Thread party = party("party", () -> {
            for (int i = 0; i < 100; i++) {
                TWO.await();
            }
        });
        party.start();
        for (int i = 0; i < 100; i++) {
            TWO.await();
        }
        party.join();
        System.out.println("they meet " + when);
    }

    /** Of three, main interrupts the first, and at once waits for the second, who finds the barrier broken. */
    static void three() throws Exception {
        for (int i = 0; i < 50; i++) {
            CyclicBarrier three = new CyclicBarrier(3);
            Thread first = Both.thread("first", () -> waits(three));
            Thread second = Both.thread("second", () -> waits(three));
            Members.member(three);
            Members.member(first, three);
            Members.member(second, three);
            first.start();
            second.start();
            while (three.getNumberWaiting() < 2) {
                Thread.yield();
            }
            first.interrupt();
            second.join();
            first.join();
        }
    }

    static void waits(CyclicBarrier barrier) throws Exception {
        try {
            barrier.await();
        } catch (InterruptedException | BrokenBarrierException e) {
            return;
        }
    }

    static void acts() throws Exception {
        CountDownLatch begun = new CountDownLatch(1);
        Phaser phaser = new Phaser(2) {
            @Override
            protected boolean onAdvance(int phase, int parties) {
                TWO.reset();
                return super.onAdvance(phase, parties);
            }
        };
        CyclicBarrier acting = new CyclicBarrier(2, phaser::arriveAndAwaitAdvance);
        Thread[] others = {Both.thread("acts", acting::await), Both.thread("acts too", acting::await), Both.thread("comes", () -> {
            begun.await();
            phaser.arriveAndAwaitAdvance();
        })};
        Members.member(others[0], acting);
        Members.member(others[1], acting);
        Members.member(others[2], phaser);
        for (Thread other : others) {
            other.start();
        }
        begun.countDown();
        for (Thread other : others) {
            other.join();
        }
        System.out.println("all have acted");
    }

    static void phaser() throws Exception {
        Phaser phaser = new Phaser(1);
        Members.member(phaser);
        for (int i = 0; i < 3; i++) {
            phaser.register();
            Thread party = Both.thread("party-" + i, () -> {
                phaser.arriveAndAwaitAdvance();
                phaser.arriveAndDeregister();
            });
            Members.member(party, phaser);
            party.start();
            phaser.arriveAndAwaitAdvance();
        }
        phaser.register();
        Thread last = Both.thread("last", () -> System.out.println(phaser.arriveAndAwaitAdvance() < 0 ? "terminated" : "advanced"));
        Members.member(last, phaser);
        last.start();
        while (phaser.getArrivedParties() == 0) {
            Thread.yield();
        }
        phaser.forceTermination();
        last.join();
    }

    /** The third of those who said so never comes, and another one in its place does. */
    static void stranger() throws Exception {
        CyclicBarrier three = new CyclicBarrier(2);
        Thread one = Both.thread("one", three::await);
        Thread absent = Both.thread("absent", () -> one.join());
        Members.member(one, three);
        Members.member(absent, three);
        one.start();
        while (three.getNumberWaiting() == 0) {
            Thread.yield();
        }
        three.await();
        absent.start();
        absent.join();
        System.out.println("another one came");
    }
}

import armus.DeadlockException;
import armus.Members;
import java.util.concurrent.Phaser;

/** A party waits for the end of a turn in which it has not arrived, and of one that is over; then two wait crosswise for turns in which they have. Who is refused at a
 * phaser has left it. */
public class Turns {
    public static void main(String[] words) throws Exception {
        Phaser own = new Phaser(1);
        Members.member(own);
        own.awaitAdvance(own.arrive());
        try {
            own.awaitAdvance(own.getPhase());
        } catch (DeadlockException e) {
            System.out.println("main waits for itself, in phase " + own.getPhase());
        }
        Phaser left = new Phaser(2);
        Phaser right = new Phaser(2);
        Thread one = Both.thread("one", () -> meet(left, right));
        Thread two = Both.thread("two", () -> meet(right, left));
        Members.member(one, left, right);
        Members.member(two, left, right);
        one.start();
        two.start();
        one.join();
        System.out.println(left.getRegisteredParties() + right.getRegisteredParties() + " parties");
        Both.end(1, one, two);
    }

    static void meet(Phaser first, Phaser second) {
        try {
            first.arriveAndAwaitAdvance();
        } catch (DeadlockException e) {
            Both.refused();
        }
        second.arriveAndDeregister();
    }
}

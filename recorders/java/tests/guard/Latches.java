import armus.DeadlockException;
import armus.Members;
import java.util.concurrent.CountDownLatch;

/** Each of two threads opens its latch only behind the other's. Who is refused opens its own. */
public class Latches {
    public static void main(String[] words) throws Exception {
        CountDownLatch left = new CountDownLatch(1);
        CountDownLatch right = new CountDownLatch(1);
        Thread one = Both.thread("one", () -> open(left, right));
        Thread two = Both.thread("two", () -> open(right, left));
        Members.member(one, left);
        Members.member(two, right);
        one.start();
        two.start();
        Both.end(1, one, two);
    }

    static void open(CountDownLatch own, CountDownLatch other) throws InterruptedException {
        try {
            other.await();
        } catch (DeadlockException e) {
            Both.refused();
        }
        own.countDown();
    }
}

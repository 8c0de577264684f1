import armus.DeadlockException;
import armus.Members;
import java.util.concurrent.BrokenBarrierException;
import java.util.concurrent.CyclicBarrier;

/** Two barriers, met in opposite order. Who is refused breaks its barrier, and comes to the other one. */
public class Opposite {
    public static void main(String[] words) throws Exception {
        CyclicBarrier left = new CyclicBarrier(2);
        CyclicBarrier right = new CyclicBarrier(2);
        Thread one = Both.thread("one", () -> meet(left, right));
        Thread two = Both.thread("two", () -> meet(right, left));
        Members.member(one, left, right);
        Members.member(two, left, right);
        one.start();
        two.start();
        Both.end(1, one, two);
    }

    static void meet(CyclicBarrier first, CyclicBarrier second) throws Exception {
        try {
            first.await();
        } catch (DeadlockException e) {
            Both.refused();
            System.out.println(first.isBroken() ? "broken" : "whole");
            second.await();
            return;
        }
        try {
            second.await();
        } catch (BrokenBarrierException e) {
            System.out.println("the other one finds it so");
        }
    }
}

import armus.DeadlockException;
import armus.Members;
import java.util.concurrent.CompletableFuture;

/** Each of two threads completes its future only with the other's result. Who is refused completes its own with a word. */
public class Completes {
    public static void main(String[] words) throws Exception {
        CompletableFuture<String> left = new CompletableFuture<>();
        CompletableFuture<String> right = new CompletableFuture<>();
        Thread one = Both.thread("one", () -> complete(left, right));
        Thread two = Both.thread("two", () -> complete(right, left));
        Members.member(one, left);
        Members.member(two, right);
        one.start();
        two.start();
        System.out.println(left.join() + " " + right.get());
        Both.end(1, one, two);
    }

    static void complete(CompletableFuture<String> own, CompletableFuture<String> other) {
        try {
            own.complete(other.join());
        } catch (DeadlockException e) {
            Both.refused();
            own.complete("word");
        }
    }
}

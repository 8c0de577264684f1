import java.util.concurrent.CountDownLatch;
import sun.misc.Signal;

/** A service: main waits until the handler of a signal lets it go. Nothing of it is stuck, since the signal comes from outside. */
public class Signalled {
    public static void main(String[] words) throws Exception {
        CountDownLatch stop = new CountDownLatch(1);
        Signal.handle(new Signal("TERM"), signal -> stop.countDown());
        stop.await();
        System.out.println("stopped");
    }
}

import armus.DeadlockException;

/** The same wait is refused five thousand times, since nobody looks at why. It is told once, and at the end how often. */
public class Again {
    public static void main(String[] words) throws Exception {
        for (int i = 0; i < 5000; i++) {
            try {
                Thread.currentThread().join();
                System.out.println("joined itself");
            } catch (DeadlockException e) {
                continue;
            }
        }
        System.out.println("end");
    }
}

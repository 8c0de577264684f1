/** Comes to its end: lets nobody read the environment, nor ask the machine anything, while a thread waits for main. */
public class Secured {
    @SuppressWarnings({"deprecation", "removal"})
    public static void main(String[] words) throws Exception {
        Object monitor = new Object();
        Thread waiting;
        synchronized (monitor) {
            waiting = new Thread(() -> {
                synchronized (monitor) {
                    System.out.println("in");
                }
            });
            waiting.start();
            try {
                System.setSecurityManager(new SecurityManager());
            } catch (UnsupportedOperationException e) {
                Thread.sleep(1);                       // later machines have none
            }
            Thread.sleep(1500);
        }
        waiting.join();
        System.out.println("end");
    }
}

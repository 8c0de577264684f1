// A CyclicBarrier of four (Java): a party is missing, and main joins. To see: main held behind held tasks.
//
// The workers wait for the fourth party, which nobody starts; main waits until
// they have ended. Nobody of them waits in a circle: at the end of the chain
// stands a task that is never forked.
//
// Repair: fork the fourth, or make a barrier of three.
b = newPhaser();
done = newPhaser();
fourth = newTid();
reg(fourth, b);
loop 3 {
  worker = newTid();
  reg(worker, b);
  reg(worker, done);
  fork(worker) {
    loop 2 {
      adv(b);
      await(b);
    }
    dereg(b);
    dereg(done);
  }
}
dereg(b);
adv(done);
await(done);

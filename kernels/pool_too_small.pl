// A pool of two threads with three jobs that meet at a CyclicBarrier (Java). To see: a deadlock of the three.
//
// Java: `Executors.newFixedThreadPool(2)`, and three jobs that meet at
// `new CyclicBarrier(3)`. The third job waits for a thread of the pool, which
// is free when a job ends, which waits for the third. A thread of the pool is
// a phaser: the jobs that it runs are its members, each waits for those before
// it, and leaves at its end. Here the third job gets the thread of the first.
//
// Repair: a pool of three.
b = newPhaser();
seat = newPhaser();
one = newTid();
reg(one, b);
reg(one, seat);
two = newTid();
reg(two, b);
three = newTid();
reg(three, b);
reg(three, seat);
fork(one) {
  adv(b);
  await(b);
  dereg(b);
  dereg(seat);
}
fork(two) {
  adv(b);
  await(b);
  dereg(b);
}
fork(three) {
  adv(seat);
  await(seat);
  adv(b);
  await(b);
  dereg(b);
  dereg(seat);
}
dereg(b);
dereg(seat);

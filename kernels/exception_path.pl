// Three rounds at a CyclicBarrier (Java): one worker throws in the second. To see: the two others held.
//
// The thread of the exception ends, and the barrier does not know it: nobody
// calls `await()` there any more, and nobody breaks the barrier either. (So it
// is in Python and C++, with a `return` in the middle of a loop.)
//
// Repair: `reset()` of the barrier where the exception is caught.
b = newPhaser();
loop 2 {
  worker = newTid();
  reg(worker, b);
  fork(worker) {
    loop 3 {
      adv(b);
      await(b);
    }
  }
}
thrower = newTid();
reg(thrower, b);
fork(thrower) {
  loop 1 {
    adv(b);
    await(b);
  }
  skip; // throws in its second round
}
dereg(b);

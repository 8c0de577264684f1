// A CyclicBarrier of two (Java) with three threads: one is too many. To see: the third held.
//
// Java: `new CyclicBarrier(2)`, and three threads that come to it once. Two
// pass, whichever they are, and the third waits for a fourth. A phaser waits
// for all its members, so there is no one phaser for such a barrier: each of
// its turns is one, with those who come in it as members.
first = newPhaser();
second = newPhaser();
loop 2 {
  t = newTid();
  reg(t, first);
  fork(t) {
    adv(first);
    await(first);
  }
}
third = newTid();
reg(third, second);
fork(third) {
  adv(second);
  await(second);
}
nobody = newTid();
reg(nobody, second);
dereg(first);
dereg(second);

// A barrier of two (pthreads): main waits before it starts the other. To see: main held, in a circle by a fork.
//
// The other thread is a party from the beginning, and would be started behind
// the wait for it. No task waits for main at a barrier, so this is no
// deadlock; and yet main waits, over the fork, for itself.
//
// Repair: fork first.
b = newPhaser();
other = newTid();
reg(other, b);
adv(b);
await(b);
fork(other) {
  adv(b);
  await(b);
}

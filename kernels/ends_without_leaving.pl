// A Phaser of parent and child (Java): the child ends and does not leave. To see: the parent held, no deadlock.
//
// The child ends as a member of p, at phase 0, and stays one for ever: it
// will never come to phase 1. The parent waits in vain, but nobody whom it
// waits for is waiting: no set of tasks waits for itself, so this is no
// deadlock. The report calls the parent held, and the status is 0.
//
// Repair: `dereg(p);` as the last statement of the child.
p = newPhaser();
t = newTid();
reg(t, p);
fork(t) {
  skip;
}
adv(p);
await(p);

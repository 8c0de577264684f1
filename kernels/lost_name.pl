// A worker that leaves a Phaser by its variable (Java): the variable is overwritten before. To see: the parent held.
//
// The worker leaves a phaser by its name. Here it gives the name a new
// phaser first, so `dereg(step);` leaves the new one, and the worker ends as
// a member of the old one, at phase 1. The parent, at phase 2, is held.
step = newPhaser();
worker = newTid();
reg(worker, step);
fork(worker) {
  adv(step);
  await(step); // p0@1
  step = newPhaser(); // p1, and p0 has no name any more
  dereg(step);
}
loop 2 {
  adv(step);
  await(step);
}

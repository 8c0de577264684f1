// Two latches with several who wait (Java's CountDownLatch): nothing is wrong. To see: who arrives, and who waits.
//
// Java: two latches of one, `start` and `x`. Main counts `start` down; one
// waits for it and counts `x` down; two waits for `x` and then for `start`.
// Who counts down is a member, and `adv` is its count. Who only waits is a
// member too, and arrives as its first deed, so that nobody waits for it: its
// `await` stands where it waits.
//
// With `adv` beside each `await` one would wait for two at `start`, and two
// for one at `x`: a deadlock that Java does not have.
start = newPhaser();
x = newPhaser();
one = newTid();
reg(one, start);
reg(one, x);
two = newTid();
reg(two, start);
reg(two, x);
fork(one) {
  adv(start);
  await(start);
  adv(x); // counts down
}
fork(two) {
  adv(start);
  adv(x);
  await(x);
  await(start);
}
dereg(x);
adv(start); // counts down

// Three threads at Phasers (Java): two wait for each other, and main for one of them. To see: a dead task on no cycle.
//
// t1 waits at a for t2, and t2 waits at b for t1: they are the cycle. The
// parent, t0, waits at c for t1, which will never come. Nobody waits for the
// parent, so it stands on no cycle, and yet it can never go on: it is dead
// like the other two.
//
// The walk of the cycle line begins at t0, goes to t1 and t2, and comes back
// to t1: the cycle is t1 t2.
a = newPhaser();
b = newPhaser();
c = newPhaser();
t = newTid();
reg(t, a);
reg(t, b);
reg(t, c);
fork(t) {
  adv(a);
  await(a);
}
t = newTid();
reg(t, a);
reg(t, b);
fork(t) {
  adv(b);
  await(b);
}
dereg(a);
dereg(b);
adv(c);
await(c);

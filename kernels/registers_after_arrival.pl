// A Phaser that gains a party behind an arrival (Java): nothing is wrong. To see: where `reg` stands in PL.
//
// Java: `new Phaser(2)` for main and b; main calls `arrive()`, then
// `register()` for c, starts b and c, which call `arriveAndAwaitAdvance()`,
// and waits for the turn. In Java a registered party has not arrived in the
// turn that goes on. In PL it has the phase of who registers it: behind main's
// `adv` it would count as arrived, and its own first `adv` would be one too
// many. So it is registered before main arrives.
p = newPhaser();
b = newTid();
reg(b, p);
c = newTid();
reg(c, p);
adv(p);
fork(b) {
  adv(p);
  await(p);
}
fork(c) {
  adv(p);
  await(p);
}
await(p);

// Two threads at a Phaser of two (Java): one arrives twice in a turn. To see: the other is held.
//
// Java: `new Phaser(2)`; main calls `arrive()` twice, which Java takes for the
// two parties, so the first turn is over. Then the other thread calls
// `arriveAndAwaitAdvance()`: it is in the second turn, and waits for a second
// arrival that nobody makes. In PL a member has one arrival in a turn: main's
// two are one `adv`, and the other is registered behind it, in the turn in
// which it comes.
//
// Repair: main arrives once.
p = newPhaser();
adv(p);
other = newTid();
reg(other, p);
fork(other) {
  adv(p);
  await(p);
}

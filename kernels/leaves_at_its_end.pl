// A barrier with a party that ends early (X10's clock, CUDA): nothing is wrong in PL 2. To see: an end that leaves.
//
// The first child ends as a member of p, at phase 0. In a text that begins
// with `pl 2;` it leaves p at its end, so nobody waits for it: its sibling and
// its parent meet and go on. Without `pl 2;` both would be held for ever.
pl 2;
p = newPhaser();
early = newTid();
reg(early, p);
fork(early) {
  skip;
}
late = newTid();
reg(late, p);
fork(late) {
  adv(p);
  await(p);
}
adv(p);
await(p);

// Divide and conquer (Java's CountDownLatch): a leaf returns before its count. To see: two held behind it.
//
// Each node forks two halves and waits until both have counted down. The right
// leaf of the left half finds what it looks for and returns at once. Its
// parent waits for it, and the root waits for its parent.
//
// Repair: count down in a `finally`.
join = newPhaser();
half = newTid();
reg(half, join);
fork(half) {
  inner = newPhaser();
  leaf = newTid();
  reg(leaf, inner);
  fork(leaf) {
    skip;
    dereg(inner);
  }
  early = newTid();
  reg(early, inner);
  fork(early) {
    skip; // finds it and returns
  }
  adv(inner);
  await(inner);
  dereg(join);
}
half = newTid();
reg(half, join);
fork(half) {
  inner = newPhaser();
  loop 2 {
    leaf = newTid();
    reg(leaf, inner);
    fork(leaf) {
      skip;
      dereg(inner);
    }
  }
  adv(inner);
  await(inner);
  dereg(join);
}
adv(join);
await(join);
skip; // combines

// A bounded buffer of two places (Java's BlockingQueue): nothing is wrong. To see: an await that looks back.
//
// put counts what the producer has made, and got what the consumer has taken:
// both are members of both, and the producer's own phase on got counts its
// items. `await(got - 2);` waits until the consumer has taken all but two of
// them, so a buffer between the two needs two places. With `await(got);` in
// its place each would wait for the other's first item: a deadlock of two.
//
// A text that begins with `pl 2;` may await so, and its tasks leave their
// phasers when they end.
pl 2;
put = newPhaser();
got = newPhaser();
consumer = newTid();
reg(consumer, put);
reg(consumer, got);
fork(consumer) {
  loop 5 {
    adv(put);
    await(put); // one item more is there
    adv(got); // and is taken
  }
}
loop 5 {
  adv(got);
  await(got - 2);
  adv(put);
}

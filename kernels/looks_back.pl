// Rounds that need the round before (Java, C): nothing is wrong. To see: an await that looks one phase back.
//
// Both advance in each round and wait until everybody has come to the round
// before. So nobody is more than one round ahead of the other, and nobody
// waits for the slowest of its own round.
pl 2;
round = newPhaser();
other = newTid();
reg(other, round);
fork(other) {
  loop 4 {
    adv(round);
    await(round - 1);
  }
}
loop 4 {
  adv(round);
  await(round - 1);
}

// Workers that average their neighbours in rounds (Java, X10): the parent stays a party. To see: all four deadlocked.
//
// All of them share the phaser pc, and meet twice in each round: once when
// everybody has read, once when everybody has written. The parent waits for
// the end of all workers on a second phaser, pb.
//
// The mistake: the parent made pc and so is a member of it, but it never
// advances on it and never leaves it. The workers wait for the parent at
// pc, the parent waits for the workers at pb, and all four are deadlocked.
pc = newPhaser();
pb = newPhaser();
loop 3 {
  t = newTid();
  reg(t, pc);
  reg(t, pb);
  fork(t) {
    loop 2 {
      skip; // read the neighbours
      adv(pc);
      await(pc);
      skip; // write the mean
      adv(pc);
      await(pc);
    }
    dereg(pc);
    dereg(pb);
  }
}
adv(pb);
await(pb);

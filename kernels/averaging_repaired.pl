// Workers that average in rounds (Java, X10), repaired. To see: all come to their end.
// The kernel of averaging.pl, but the parent leaves pc when it has forked the
// workers. Now pc is a barrier of the workers alone, and the parent passes pb.
pc = newPhaser();
pb = newPhaser();
loop 3 {
  t = newTid();
  reg(t, pc);
  reg(t, pb);
  fork(t) {
    loop 2 {
      skip; // read the neighbours
      adv(pc);
      await(pc);
      skip; // write the mean
      adv(pc);
      await(pc);
    }
    dereg(pc);
    dereg(pb);
  }
}
dereg(pc); // the repair
adv(pb);
await(pb);

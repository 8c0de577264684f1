// Workers that average in rounds (Java, X10), with their parent's mistake. To see: the counts of `armus check`.
// These are its tasks, its phasers and its ops. Of the 43 ops the parent makes
// 13: two phasers, six registrations, three forks, an adv and an await.
// Each worker makes 10: four advs, four awaits, and the two deregs.
pc = newPhaser();
pb = newPhaser();
loop 3 {
  t = newTid();
  reg(t, pc);
  reg(t, pb);
  fork(t) {
    loop 2 {
      skip; // read the neighbours
      adv(pc);
      await(pc);
      skip; // write the mean
      adv(pc);
      await(pc);
    }
    dereg(pc);
    dereg(pb);
  }
}
adv(pb);
await(pb);

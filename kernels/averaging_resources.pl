// Workers that average in rounds (Java, X10), by the general resource graph. To see: another last line.
// The kernel of averaging.pl. Another graph shows the same deadlock: only the
// last line of the report changes. Each of the four tasks has an edge to the
// event that it awaits; pb@1 is impeded by the three workers, pc@1 by the parent.
pc = newPhaser();
pb = newPhaser();
loop 3 {
  t = newTid();
  reg(t, pc);
  reg(t, pb);
  fork(t) {
    loop 2 {
      skip; // read the neighbours
      adv(pc);
      await(pc);
      skip; // write the mean
      adv(pc);
      await(pc);
    }
    dereg(pc);
    dereg(pb);
  }
}
adv(pb);
await(pb);

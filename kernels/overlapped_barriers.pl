// Two barriers that overlap (MPI_Ibarrier): nothing is wrong. To see: opposite order that does no harm.
//
// Each task arrives at both before it waits at one. So the order of the waits
// does not matter, though it is not the same in the two.
a = newPhaser();
b = newPhaser();
t = newTid();
reg(t, a);
reg(t, b);
fork(t) {
  adv(a);
  adv(b);
  await(b);
  await(a);
}
adv(b);
adv(a);
await(a);
await(b);

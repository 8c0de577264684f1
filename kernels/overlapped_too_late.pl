// Two barriers that overlap (MPI_Ibarrier): each second arrival is too late. To see: a deadlock of two.
//
// Each task arrives at its second barrier only when it has waited at its first
// one, where the other has not arrived yet.
//
// Repair: arrive at both, and then wait, as in overlapped_barriers.
a = newPhaser();
b = newPhaser();
t = newTid();
reg(t, a);
reg(t, b);
fork(t) {
  adv(b);
  await(b);
  adv(a);
  await(a);
}
adv(a);
skip; // work of its own
await(a);
adv(b);
await(b);

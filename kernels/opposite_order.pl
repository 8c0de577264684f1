// Two barriers of two (Java, pthreads), met in opposite order. To see: a deadlock of two.
// It is the classic deadlock of two locks, told with barriers: both tasks are
// parties of left and of right, but one meets at left first.
//
// The parent waits at left for the child, which stands at right and waits
// there for the parent.
left = newPhaser();
right = newPhaser();
other = newTid();
reg(other, left);
reg(other, right);
fork(other) {
  adv(right);
  await(right);
  adv(left);
  await(left);
}
adv(left);
await(left);
adv(right);
await(right);

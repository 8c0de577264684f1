// A stencil of four workers (OpenMP, Java): one makes a step less. To see: three held.
//
// In each step a worker meets its left neighbour, and then its right one. The
// second worker makes two steps and the others three: its neighbours wait for
// it, and the last worker waits for one of these.
//
// Repair: the same bound for all.
left = newPhaser();
middle = newPhaser();
right = newPhaser();
first = newTid();
reg(first, left);
fork(first) {
  loop 3 {
    adv(left);
    await(left);
  }
}
second = newTid();
reg(second, left);
reg(second, middle);
fork(second) {
  loop 2 {
    adv(left);
    await(left);
    adv(middle);
    await(middle);
  }
}
third = newTid();
reg(third, middle);
reg(third, right);
fork(third) {
  loop 3 {
    adv(middle);
    await(middle);
    adv(right);
    await(right);
  }
}
fourth = newTid();
reg(fourth, right);
fork(fourth) {
  loop 3 {
    adv(right);
    await(right);
  }
}
dereg(left);
dereg(middle);
dereg(right);

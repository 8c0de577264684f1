// Three stages with bounded buffers (Go's channels): one keeps a buffer of the others. To see: a deadlock of all.
//
// The kernel of two_buffers, but the first stage does not leave the buffer
// between the others, which it made. The last stage waits there for the first,
// the middle one for room, and the first one for room in its own buffer. In
// PL 2 its end would leave, but it does not come to its end.
//
// Repair: `dereg(put_b);` and `dereg(got_b);` in front of the last loop.
pl 2;
put_a = newPhaser();
got_a = newPhaser();
put_b = newPhaser();
got_b = newPhaser();
middle = newTid();
reg(middle, put_a);
reg(middle, got_a);
reg(middle, put_b);
reg(middle, got_b);
last = newTid();
reg(last, put_b);
reg(last, got_b);
fork(middle) {
  loop 6 {
    adv(put_a);
    await(put_a); // an item is in the first buffer
    adv(got_a); // and is taken
    adv(got_b);
    await(got_b - 2); // room in the second
    adv(put_b);
  }
}
fork(last) {
  loop 6 {
    adv(put_b);
    await(put_b);
    adv(got_b);
  }
}
loop 6 {
  adv(got_a);
  await(got_a - 2); // room in the first
  adv(put_a);
}

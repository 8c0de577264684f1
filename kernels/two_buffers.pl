// Three stages with bounded buffers (Go's channels): nothing is wrong. To see: awaits that look back.
//
// For each buffer `put` counts what was put in and `got` what was taken out;
// both sides are members of both. The kernel itself is the first stage: it
// made the second buffer too, and leaves it.
pl 2;
put_a = newPhaser();
got_a = newPhaser();
put_b = newPhaser();
got_b = newPhaser();
middle = newTid();
reg(middle, put_a);
reg(middle, got_a);
reg(middle, put_b);
reg(middle, got_b);
last = newTid();
reg(last, put_b);
reg(last, got_b);
fork(middle) {
  loop 6 {
    adv(put_a);
    await(put_a); // an item is in the first buffer
    adv(got_a); // and is taken
    adv(got_b);
    await(got_b - 2); // room in the second
    adv(put_b);
  }
}
fork(last) {
  loop 6 {
    adv(put_b);
    await(put_b);
    adv(got_b);
  }
}
dereg(put_b);
dereg(got_b);
loop 6 {
  adv(got_a);
  await(got_a - 2); // room in the first
  adv(put_a);
}

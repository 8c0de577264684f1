// Two loops at a barrier (C, pthreads): `<= n` beside `< n`. To see: one held in its last turn.
//
// Ten times both come to the barrier. In the eleventh turn main waits for a
// thread that has ended.
//
// Repair: the same bound in both.
b = newPhaser();
t = newTid();
reg(t, b);
fork(t) {
  loop 10 {
    adv(b);
    await(b);
  }
}
loop 11 {
  adv(b);
  await(b);
}

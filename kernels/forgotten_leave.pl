// Four rounds at a Phaser (Java): one worker gives up and does not leave. To see: all others held.
//
// Java: `new Phaser(1)` for main, and `register()` for three workers. Each
// comes four times and then calls `arriveAndDeregister()`. One returns after
// two rounds without that call.
//
// Repair: `arriveAndDeregister()` on each way out, as in a `finally`.
ph = newPhaser();
worker = newTid();
reg(worker, ph);
fork(worker) {
  loop 4 {
    adv(ph);
    await(ph);
  }
  dereg(ph);
}
early = newTid();
reg(early, ph);
fork(early) {
  loop 2 {
    adv(ph);
    await(ph);
  }
}
worker = newTid();
reg(worker, ph);
fork(worker) {
  loop 4 {
    adv(ph);
    await(ph);
  }
  dereg(ph);
}
loop 4 {
  adv(ph);
  await(ph);
}
dereg(ph);

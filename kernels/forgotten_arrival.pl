// A barrier at which nobody arrives (a forgotten adv). To see: nobody waits, and two notes.
// Each task awaits the phase that it has, and that is phase 0: nobody has called adv.
// In front of each await an adv is missing.
start = newPhaser();
loop 3 {
  worker = newTid();
  reg(worker, start);
  fork(worker) {
    await(start);
    dereg(start);
  }
}
await(start);
dereg(start);

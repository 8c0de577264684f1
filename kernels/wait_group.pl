// Three goroutines in a WaitGroup (Go): one returns without Done. To see: main held.
//
// Go: `wg.Add(1)` three times, and one of the three goroutines returns without
// `wg.Done()`; main waits at `wg.Wait()`. Who is counted is a member, and
// `Done` is its leave. Go itself tells of this hang, but only as long as no
// other goroutine is there.
//
// Repair: `defer wg.Done()` at the beginning of each.
wg = newPhaser();
g = newTid();
reg(g, wg);
fork(g) {
  dereg(wg);
}
g = newTid();
reg(g, wg);
fork(g) {
  skip; // returns
}
g = newTid();
reg(g, wg);
fork(g) {
  dereg(wg);
}
adv(wg);
await(wg);

// A parallel region (OpenMP): all but the master meet a barrier in a branch. To see: a deadlock with the region's end.
//
// OpenMP: all threads of a team but its master call a function with
// `#pragma omp barrier` in it, and then all come to another one. The team's
// barriers are one phaser, since OpenMP does not tell them apart: the second
// one of the workers is met by nobody. The end of the parallel region is a
// barrier too, though nobody wrote it, and one of its own: there the master
// waits.
//
// Repair: take the call out of the branch.
team = newPhaser();
region = newPhaser();
loop 3 {
  worker = newTid();
  reg(worker, team);
  reg(worker, region);
  fork(worker) {
    adv(team);
    await(team); // in the branch
    adv(team);
    await(team); // behind it
    adv(region);
    await(region);
  }
}
adv(team);
await(team); // behind the branch
adv(region);
await(region);

// Three ranks and three barriers (MPI): rank 2 skips one. To see: a deadlock with MPI_Finalize.
//
// MPI: three ranks, and three steps with `MPI_Barrier(MPI_COMM_WORLD)`. Rank 2
// has nothing to do in the second step and skips its barrier, so it comes to
// `MPI_Finalize` while the others wait in their third step. A communicator is
// a phaser, and each collective that waits for all (as `MPI_Allreduce` does,
// too) is one turn of it; `MPI_Finalize` waits for all, on a phaser of its
// own. Rank 0 is the kernel itself.
//
// Repair: rank 2 comes to each barrier.
world = newPhaser();
finalize = newPhaser();
rank = newTid();
reg(rank, world);
reg(rank, finalize);
fork(rank) {
  loop 3 {
    adv(world);
    await(world);
  }
  adv(finalize);
  await(finalize);
}
skipping = newTid();
reg(skipping, world);
reg(skipping, finalize);
fork(skipping) {
  loop 2 {
    adv(world);
    await(world);
  }
  adv(finalize);
  await(finalize);
}
loop 3 {
  adv(world);
  await(world);
}
adv(finalize);
await(finalize);

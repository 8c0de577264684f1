// A barrier that is split (C++'s std::barrier, MPI_Ibarrier): nothing is wrong. To see: work between adv and await.
// A task says that it has arrived, does work of its own, and only then waits.
//
// The parent is a party of the barrier like its two children. Nobody is
// stuck: all three advance three times, and leave.
b = newPhaser();
loop 2 {
  worker = newTid();
  reg(worker, b);
  fork(worker) {
    loop 3 {
      skip; // write what the others read
      adv(b); // arrived
      skip; // work of its own, while the others arrive
      await(b); // all have arrived
      skip; // read what the others wrote
    }
    dereg(b);
  }
}
loop 3 {
  skip;
  adv(b);
  skip;
  await(b);
  skip;
}
dereg(b);

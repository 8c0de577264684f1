// A CyclicBarrier of four (Java) with three workers: a party is missing. To see: three held, and one never forked.
//
// Java: `new CyclicBarrier(4)`, and three workers; the fourth party was meant
// to be main, or a worker that nobody starts. (It is the same with
// `pthread_barrier_t`, and with the barriers of Python, C# and Rust.) The
// fourth party is a task that is never forked. Main made the phaser, so it is
// a member, and since it is no party it leaves.
//
// Repair: fork the fourth, or make a barrier of three.
b = newPhaser();
fourth = newTid();
reg(fourth, b);
loop 3 {
  worker = newTid();
  reg(worker, b);
  fork(worker) {
    loop 2 {
      adv(b);
      await(b);
    }
  }
}
dereg(b);

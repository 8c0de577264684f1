// A CyclicBarrier of three (Java): main makes it and is no party. To see: three held for main, which has ended.
//
// Java: `new CyclicBarrier(3)`, and three workers. Who makes a phaser in PL is
// its first member. Main is not meant to be one, comes to its end as one, and
// all workers wait for it in their first round.
//
// Repair: `dereg(b);` as the last statement.
b = newPhaser();
loop 3 {
  worker = newTid();
  reg(worker, b);
  fork(worker) {
    loop 2 {
      adv(b);
      await(b);
    }
  }
}

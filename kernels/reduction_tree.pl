// A reduction tree of seven tasks (MPI): nothing is wrong. To see: all come to their end.
//
// A node waits until its two children have left its phaser, each when its own
// sum is there, and then leaves that of its parent.
root = newPhaser();
loop 2 {
  node = newTid();
  reg(node, root);
  fork(node) {
    mine = newPhaser();
    loop 2 {
      leaf = newTid();
      reg(leaf, mine);
      fork(leaf) {
        skip; // its sum
        dereg(mine);
      }
    }
    adv(mine);
    await(mine);
    skip; // the sum of both
    dereg(root);
  }
}
adv(root);
await(root);

// A reduction tree (MPI): the nodes wait for the result first. To see: a deadlock of three.
//
// The root waits until both nodes have left `root`, and hands the result on at
// `result`. A node leaves `root` only behind its wait at `result`: it waits
// for the root, which waits for it. The leaves come to their end.
//
// Repair: `dereg(root);` before the wait for the result.
root = newPhaser();
result = newPhaser();
loop 2 {
  node = newTid();
  reg(node, root);
  reg(node, result);
  fork(node) {
    mine = newPhaser();
    loop 2 {
      leaf = newTid();
      reg(leaf, mine);
      fork(leaf) {
        skip; // its sum
        dereg(mine);
      }
    }
    adv(mine);
    await(mine);
    adv(result);
    await(result); // too early
    dereg(root);
  }
}
adv(root);
await(root);
adv(result);
await(result);

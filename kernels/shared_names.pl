// Nested threads and their variables (Java, Go): nothing is wrong. To see: what a name means in whom.
//
// A forked body begins with a copy of its parent's names, as they are at the
// fork. So `meet` is one phaser, p0, for the parent, the child and the
// grandchild, and all three meet at it. An assignment changes the name in
// the one task that makes it: the child gives `helper` a task of its own, and
// the grandchild gives `meet` a new phaser, p1, at which it is alone and so
// never waits. The parent's `meet` is p0 to the end.
meet = newPhaser();
helper = newTid(); // t1
reg(helper, meet);
fork(helper) {
  helper = newTid(); // t2, in this task alone
  reg(helper, meet);
  fork(helper) {
    adv(meet);
    await(meet); // p0@1
    dereg(meet);
    meet = newPhaser(); // p1
    adv(meet);
    await(meet); // p1@1
  }
  adv(meet);
  await(meet); // p0@1
  dereg(meet);
}
adv(meet);
await(meet); // p0@1
adv(meet);
await(meet); // p0@2: the other two have left

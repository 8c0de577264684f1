// Three stages that hand five items on (Java's queues): nothing is wrong. To see: a stage that runs ahead.
//
// Between two stages stands a phaser: ab between the first and the second,
// bc between the second and the third. The stage ahead advances on it when
// an item is ready; the stage behind advances and then waits for that item.
// A stage that only advances never waits: it may run ahead by any number of
// items, since a phaser counts each member's phases.
//
// Each stage leaves its phasers at its end, and the parent, which made them,
// leaves them at once: a member that stands still would stop every stage
// behind it.
ab = newPhaser();
bc = newPhaser();
first = newTid();
second = newTid();
third = newTid();
reg(first, ab);
reg(second, ab);
reg(second, bc);
reg(third, bc);
fork(first) {
  loop 5 {
    skip; // make an item
    adv(ab);
  }
  dereg(ab);
}
fork(second) {
  loop 5 {
    adv(ab);
    await(ab); // for the item of the first stage
    skip; // work on it
    adv(bc);
  }
  dereg(ab);
  dereg(bc);
}
fork(third) {
  loop 5 {
    adv(bc);
    await(bc); // for the item of the second stage
    skip; // use it
  }
  dereg(bc);
}
dereg(ab);
dereg(bc);

// Fork and join of four children (X10's finish, Go's WaitGroup): nothing is wrong. To see: all come to their end.
// The parent forks them and waits until the last of them has ended.
//
// One phaser is enough. Every child is a member of it and leaves it as its
// last deed; the parent advances and waits. It is at phase 1, and each child
// that is still there is at phase 0, so the parent passes when all have
// left.
join = newPhaser();
loop 4 {
  child = newTid();
  reg(child, join);
  fork(child) {
    skip; // the child's work
    dereg(join);
  }
}
adv(join);
await(join);
skip; // all children have ended

// A thread that starts its sibling (Java): PL has no form for it. To see: a refusal, check 5.
// Only a task that drew another may register or fork it, and only before the
// fork. Here t2 wants to fork t1, which the parent drew, at the fifth statement.
p = newPhaser();
s = newTid();
t = newTid();
fork(t) {
  fork(s) {
    skip;
  }
}

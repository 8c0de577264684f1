// Four threads at four Phasers (Java): each waits at one of its own. To see: the wait-for graph is taken.
//
// Four tasks are members of four phasers, and each waits at one of its own.
// Every task impedes the event of each other one, so every event has an edge
// to each other event: with the first k tasks the state graph has k * (k - 1)
// edges, which are 0, 2, 6, 12. It is taken as long as these are at most
// 2 * k; 12 is above 8, so the report is by the wait-for graph. Here it has
// as many edges. With one task and one phaser less (6 edges are not above 6)
// the state graph stays.
a = newPhaser();
b = newPhaser();
c = newPhaser();
d = newPhaser();
t = newTid();
reg(t, a);
reg(t, b);
reg(t, c);
reg(t, d);
fork(t) {
  adv(a);
  await(a);
}
t = newTid();
reg(t, a);
reg(t, b);
reg(t, c);
reg(t, d);
fork(t) {
  adv(b);
  await(b);
}
t = newTid();
reg(t, a);
reg(t, b);
reg(t, c);
reg(t, d);
fork(t) {
  adv(c);
  await(c);
}
t = newTid();
reg(t, a);
reg(t, b);
reg(t, c);
reg(t, d);
fork(t) {
  adv(d);
  await(d);
}
dereg(a);
dereg(b);
dereg(c);
dereg(d);

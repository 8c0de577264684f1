// A thread that is registered and never started (Java's Phaser). To see: its parent held, no deadlock.
//
// The child was registered on p, so p counts it as a member, at phase 0.
// But its fork was forgotten, so it never advances. The parent is held.
p = newPhaser();
t = newTid();
reg(t, p);
adv(p);
await(p);

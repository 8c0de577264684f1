"""One thread comes to the barrier with a lock that the other one needs before it comes there. Whoever is refused leaves the barrier, or comes without the lock."""
import threading

import armus

meet = threading.Barrier(2)
account = threading.Lock()
turn = threading.Barrier(3)


def come():
    armus.member(meet)
    turn.wait()
    try:
        with account:
            meet.wait()
    except threading.BrokenBarrierError:
        print('broken\n', end='')
    except armus.DeadlockError:
        print('without\n', end='')
        meet.wait()


threads = [threading.Thread(target=come, name=f'party-{i}') for i in range(2)]
for thread in threads:
    thread.start()
turn.wait()
for thread in threads:
    thread.join()
print('end')

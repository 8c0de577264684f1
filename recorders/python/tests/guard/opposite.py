"""Two barriers, met in opposite order. Whoever is refused ends, and so leaves the other one too."""
import threading

import armus

left = threading.Barrier(2)
right = threading.Barrier(2)
begun = threading.Barrier(2)


def work(first, second):
    armus.member(left)
    armus.member(right)
    begun.wait()
    try:
        first.wait()
        second.wait()
    except armus.DeadlockError:
        print('refused\n', end='')
    except threading.BrokenBarrierError:
        print('broken\n', end='')


threads = [threading.Thread(target=work, args=p, name=f'party-{i}') for i, p in enumerate(((left, right), (right, left)))]
for thread in threads:
    thread.start()
for thread in threads:
    thread.join()
print('end')

"""Eight threads take two of six locks in rising order, and meet: no deadlock."""
import random
import threading
import time

locks = [threading.Lock() for _ in range(6)]
meet = threading.Barrier(8)


def work(me):
    any_of = random.Random(me)
    for i in range(300):
        low, high = sorted(any_of.sample(range(6), 2))
        with locks[low]:
            with locks[high]:
                if any_of.random() < 0.2:
                    time.sleep(0.001)
        if i % 50 == 0:
            meet.wait()


threads = [threading.Thread(target=work, args=(i,), name=f'worker-{i}') for i in range(8)]
for thread in threads:
    thread.start()
for thread in threads:
    thread.join()
print('end')

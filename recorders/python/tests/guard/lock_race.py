"""No deadlock: threads take locks in rising order, by with, by acquire and release, recursively, and behind a condition, and one gives back what another one took. Whoever takes a lock is not yet known as its
holder for a moment, and one that was just given back still is: neither may refuse anybody."""
import random
import threading

locks = [threading.RLock() if i % 3 == 2 else threading.Lock() for i in range(6)]
counts = [0] * 6
handed = threading.Lock()
changed = threading.Condition(threading.RLock())
turn = [0]


def work(me):
    any_of = random.Random(me)
    for i in range(400):
        low, high = sorted(any_of.sample(range(6), 2))
        with locks[low]:
            locks[high].acquire()
            try:
                counts[high] += 1
            finally:
                locks[high].release()
        if i % 20 == 0:
            with changed:
                turn[0] += 1
                changed.notify_all()
        if i % 50 == 0:
            with changed:
                changed.wait(0.001)


def hands_over():
    for _ in range(200):
        handed.acquire()
        threading.Thread(target=handed.release).start()


threads = [threading.Thread(target=work, args=(i,), name=f'worker-{i}') for i in range(8)] + [threading.Thread(target=hands_over)]
for thread in threads:
    thread.start()
for thread in threads:
    thread.join()
print(sum(counts), turn[0])
print('end')

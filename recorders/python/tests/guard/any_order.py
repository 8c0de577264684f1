"""Threads take locks in any order, ask for the results of tasks with a lock, and join one another. Whoever is refused gives back what it has. So all come to their end."""
import concurrent.futures
import random
import threading

import armus

COUNT, ROUNDS = 6, 150
locks = [threading.RLock() if i % 2 else threading.Lock() for i in range(4)]
begun = threading.Barrier(COUNT)
taken = [0] * len(locks)


def task(i):
    with locks[i]:
        return i


def work(me):
    any_of = random.Random(me)
    begun.wait()
    for i in range(ROUNDS):
        one, other = any_of.sample(range(len(locks)), 2)
        try:
            with locks[one]:
                if i % 10 == 0:
                    pool.submit(task, other).result()
                elif i == ROUNDS - 1 and me:
                    threads[me - 1].join()
                else:
                    with locks[other]:
                        taken[other] += 1
        except armus.DeadlockError:
            pass


with concurrent.futures.ThreadPoolExecutor(COUNT, 'pool') as pool:
    threads = [threading.Thread(target=work, args=(i,), name=f'worker-{i}') for i in range(COUNT)]
    for thread in threads:
        thread.start()
    for thread in threads:
        thread.join()
print('end')

"""Four threads take two locks each, in a circle."""
import threading

import armus

COUNT = 4
locks = [threading.Lock() for _ in range(COUNT)]
all_have_one = threading.Barrier(COUNT)


def work(me):
    first, second = locks[me], locks[(me + 1) % COUNT]
    try:
        with first:
            all_have_one.wait()
            second.acquire()
            try:
                print('both\n', end='')
            finally:
                second.release()
    except armus.DeadlockError:
        print('refused\n', end='')


threads = [threading.Thread(target=work, args=(i,), name=f'lock-{i}') for i in range(COUNT)]
for thread in threads:
    thread.start()
for thread in threads:
    thread.join()
print('end')

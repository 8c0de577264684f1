"""A child by fork deadlocks at two locks, while its parent waits for it."""
import os
import threading

x, y = threading.Lock(), threading.Lock()
both = threading.Barrier(2)


def lock(first, second):
    with first:
        both.wait()
        with second:
            both.wait()


threading.Thread(target=lambda: None).start()
if os.fork() == 0:
    threads = [threading.Thread(target=lock, args=locks, name=f'lock-{i}') for i, locks in enumerate(((x, y), (y, x)))]
    for thread in threads:
        thread.start()
    for thread in threads:
        thread.join()
else:
    os.wait()

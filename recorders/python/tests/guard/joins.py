"""Main joins a thread with a lock that the thread needs."""
import threading

import armus

account = threading.RLock()
has = threading.Event()


def work():
    has.wait()
    try:
        with account:
            print('taken\n', end='')
    except armus.DeadlockError:
        print('refused\n', end='')


worker = threading.Thread(target=work, name='worker')
worker.start()
with account:
    has.set()
    try:
        worker.join()
    except armus.DeadlockError:
        print('refused\n', end='')
worker.join()
print('end')

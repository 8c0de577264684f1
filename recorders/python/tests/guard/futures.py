"""Two tasks of a pool wait for each other's result."""
import concurrent.futures
import threading

import armus

begun = threading.Barrier(2)
answers = [None, None]
known = threading.Event()


def ask(me):
    known.wait()
    begun.wait()
    return answers[1 - me].result()


with concurrent.futures.ThreadPoolExecutor(2, 'pool') as pool:
    answers[:] = [pool.submit(ask, me) for me in range(2)]
    known.set()
    for answer in answers:
        try:
            answer.result()
        except armus.DeadlockError:
            print('refused\n', end='')
print('end')

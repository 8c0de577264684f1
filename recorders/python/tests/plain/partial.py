"""Two servers go on for ever. Meanwhile two threads take two locks in opposite order, two take two recursive locks so, and two tasks of a pool wait for each other."""
import concurrent.futures
import threading
import time

served = threading.Lock()
x, y, rx, ry = threading.Lock(), threading.Lock(), threading.RLock(), threading.RLock()
locked, entered = threading.Barrier(2), threading.Barrier(2)


def server():
    while True:
        with served:
            time.sleep(0.001)


def lock(first, second, both):
    with first:
        both.wait()
        with second:
            both.wait()


def ask(me):
    time.sleep(0.3)
    return answers[1 - me].result()


for i in range(2):
    threading.Thread(target=server, name=f'server-{i}').start()
threading.Thread(target=lock, args=(x, y, locked), name='lock-1').start()
threading.Thread(target=lock, args=(y, x, locked), name='lock-2').start()
threading.Thread(target=lock, args=(rx, ry, entered), name='rlock-1').start()
threading.Thread(target=lock, args=(ry, rx, entered), name='rlock-2').start()
pool = concurrent.futures.ThreadPoolExecutor(2, 'pool')
answers = [None, None]
answers[:] = [pool.submit(ask, me) for me in range(2)]

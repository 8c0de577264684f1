"""Each of two tasks of a pool of two waits for one that nobody is left to run."""
import concurrent.futures
import time


def outer(i):
    time.sleep(0.2)
    return pool.submit(int, i).result()


pool = concurrent.futures.ThreadPoolExecutor(2, 'pool')
print(list(pool.map(outer, range(2))))

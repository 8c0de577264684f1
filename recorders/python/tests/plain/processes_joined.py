"""Comes to its end: a process waits for the end of others. One holds a lock for two seconds and runs only C code at first, one waits for the lock, one runs a program."""
import multiprocessing
import subprocess
import sys


def works(lock):
    sum(range(100000000))
    with lock:
        sum(range(100000000))


def waits(lock):
    with lock:
        pass


def runs(lock):
    subprocess.run([sys.executable, '-I', '-c', 'import time; time.sleep(2)'], check=True)
    with lock:
        pass


if __name__ == '__main__':
    held = multiprocessing.Lock()
    workers = [multiprocessing.Process(target=what, args=(held,)) for what in (works, waits, runs)]
    held.acquire()
    for worker in workers:
        worker.start()
    sum(range(100000000))
    held.release()
    for worker in workers:
        worker.join()
    print('end')

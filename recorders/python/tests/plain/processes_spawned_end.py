"""Comes to its end: spawned processes run C code that lets no other thread run, and their parent waits for their end."""
import multiprocessing


def works(lock):
    sum(range(100000000))
    with lock:
        sum(range(100000000))


def waits(lock):
    with lock:
        pass


if __name__ == '__main__':
    multiprocessing.set_start_method('spawn')
    held = multiprocessing.Lock()
    workers = [multiprocessing.Process(target=what, args=(held,)) for what in (works, waits)]
    held.acquire()
    for worker in workers:
        worker.start()
    sum(range(100000000))
    held.release()
    for worker in workers:
        worker.join()
    print('end')

"""Comes to its end: a process waits at a barrier, and the others that come to it are started one after the other."""
import multiprocessing
import time


def work(barrier):
    barrier.wait()


if __name__ == '__main__':
    meet = multiprocessing.Barrier(4)
    workers = []
    for _ in range(3):
        workers.append(multiprocessing.Process(target=work, args=(meet,)))
        workers[-1].start()
        time.sleep(1)
    meet.wait()
    for worker in workers:
        worker.join()
    print('end')

"""Comes to its end: three processes meet at a barrier of their own, and one of them comes late."""
import multiprocessing
import time


def work(me, barrier):
    for _ in range(3):
        time.sleep(0.4 * me)
        barrier.wait()


if __name__ == '__main__':
    meet = multiprocessing.Barrier(3)
    workers = [multiprocessing.Process(target=work, args=(i, meet)) for i in range(2)]
    for worker in workers:
        worker.start()
    work(2, meet)
    for worker in workers:
        worker.join()
    print('end')

"""Two processes take two locks of theirs in opposite order, and their parent waits for their end."""
import multiprocessing
import time


def cross(first, second):
    with first:
        time.sleep(0.3)
        second.acquire()


if __name__ == '__main__':
    left, right = multiprocessing.Lock(), multiprocessing.Lock()
    workers = [multiprocessing.Process(target=cross, args=pair) for pair in ((left, right), (right, left))]
    for worker in workers:
        worker.start()
    for worker in workers:
        worker.join()

"""A spawned process waits at a barrier and holds a lock for which another one waits, and their parent waits for their end."""
import multiprocessing


def work(lock, barrier):
    with lock:
        barrier.wait()


if __name__ == '__main__':
    multiprocessing.set_start_method('spawn')
    lock, barrier = multiprocessing.Lock(), multiprocessing.Barrier(2)
    workers = [multiprocessing.Process(target=work, args=(lock, barrier)) for _ in range(2)]
    for worker in workers:
        worker.start()
    for worker in workers:
        worker.join()

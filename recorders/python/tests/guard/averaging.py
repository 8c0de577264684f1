"""The main thread belongs to the barrier of its workers, and waits at another one for their end."""
import threading
import time

import armus

pc = threading.Barrier(4)
pb = threading.Barrier(4)


def work():
    armus.member(pc)
    armus.member(pb)
    try:
        for _ in range(4):
            pc.wait()
        pb.wait()
    except threading.BrokenBarrierError:
        print('broken\n', end='')


workers = [threading.Thread(target=work, name=f'worker-{i}') for i in range(3)]
for worker in workers:
    worker.start()
armus.member(pc)
armus.member(pb)
while pc.n_waiting < 3:
    time.sleep(0.01)
try:
    pb.wait()
except armus.DeadlockError as error:
    print(error)
    pc.abort()
for worker in workers:
    worker.join()
print('end')

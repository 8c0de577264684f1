"""The same, and nobody takes the exception: main ends by it, and so leaves the barrier of its workers, which is broken then."""
import threading
import time

import armus

pc = threading.Barrier(4)
pb = threading.Barrier(4)


def work():
    armus.member(pc)
    armus.member(pb)
    try:
        for _ in range(4):
            pc.wait()
        pb.wait()
    except threading.BrokenBarrierError:
        print('broken\n', end='')


for i in range(3):
    threading.Thread(target=work, name=f'worker-{i}').start()
armus.member(pc)
armus.member(pb)
while pc.n_waiting < 3:
    time.sleep(0.01)
pb.wait()

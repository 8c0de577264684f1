"""Comes to its end: a barrier is broken by one that does not wait any longer, and mended; then all meet."""
import threading

b = threading.Barrier(3)
try:
    b.wait(timeout=0.01)
except threading.BrokenBarrierError:
    b.reset()


def work():
    for _ in range(2):
        b.wait()


for i in range(2):
    threading.Thread(target=work, name=f'worker-{i}').start()
work()

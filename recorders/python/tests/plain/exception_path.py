"""A worker raises in its second round, and never comes to the barrier again."""
import threading

b = threading.Barrier(3)


def work(me):
    for turn in range(3):
        if me == 2 and turn == 1:
            raise ValueError('bad input')
        b.wait()


threading.excepthook = lambda args: None
for i in range(3):
    threading.Thread(target=work, args=(i,), name=f'worker-{i}').start()

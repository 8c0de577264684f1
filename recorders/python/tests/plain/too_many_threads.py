"""A barrier of two, and three threads: two of them pass, and one is left."""
import threading


def work():
    b.wait()


b = threading.Barrier(2)
for i in range(3):
    threading.Thread(target=work, name=f'worker-{i}').start()

"""A barrier of four, and three workers: the main thread was meant to be the fourth."""
import threading


def work():
    for _ in range(2):
        b.wait()


b = threading.Barrier(4)
for i in range(3):
    threading.Thread(target=work, name=f'worker-{i}').start()

"""Many short threads, of which each may have the number of one before it, and at last one that is deadlocked with main."""
import threading
import time

one, other = threading.Lock(), threading.Lock()
ready = threading.Event()


def works():
    time.sleep(0.01)


def crosses():
    with other:
        ready.set()
        with one:
            pass


for i in range(40):
    thread = threading.Thread(target=works, name=f'short-{i}')
    thread.start()
    thread.join()
with one:
    threading.Thread(target=crosses, name='last').start()
    ready.wait()
    with other:
        pass

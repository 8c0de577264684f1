"""The main thread has work of its own for an hour before it comes to the barrier."""
import threading
import time

b = threading.Barrier(2)


def work():
    b.wait()


threading.Thread(target=work, name='worker').start()
time.sleep(3600)
b.wait()

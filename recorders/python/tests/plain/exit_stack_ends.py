"""Comes to its end: locks that are entered by an ExitStack, given back early, handed on to another stack, closed by another thread, pushed without being entered, and left by an
exception, while others wait for them."""
import contextlib
import threading
import time

locks = [threading.Lock() for _ in range(4)]
handed = []
ready = threading.Barrier(3)


def take(lock, seconds):
    with contextlib.ExitStack() as stack:
        stack.enter_context(lock)
        time.sleep(seconds)
        if seconds > 0.2:
            raise ValueError


def raises(lock):
    for _ in range(2):
        try:
            take(lock, 0.3)
        except ValueError:
            pass


def hands_on():
    with contextlib.ExitStack() as stack:
        stack.enter_context(locks[1])
        ready.wait()
        handed.append(stack.pop_all())
        take(locks[0], 0.1)
        threading.Timer(0.4, handed[0].close).start()
        take(locks[1], 0.1)


def pushes():
    with contextlib.ExitStack() as stack:
        stack.push(locks[2])
        ready.wait()
        take(locks[1], 0.1)
        locks[2].acquire()


def gives_back():
    with contextlib.ExitStack() as stack:
        stack.enter_context(locks[3])
        ready.wait()
        locks[3].release()
        with locks[0], locks[3]:
            time.sleep(0.1)
        locks[3].acquire()


threads = [threading.Thread(target=f, args=a) for f, a in ((raises, (locks[0],)), (raises, (locks[0],)), (hands_on, ()), (pushes, ()), (gives_back, ()))]
threads += [threading.Thread(target=take, args=(lock, 0.1)) for lock in locks for _ in range(2)]
for thread in threads:
    thread.start()
for thread in threads:
    thread.join()
print('end')

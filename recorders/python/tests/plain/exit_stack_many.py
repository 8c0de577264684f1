"""A thread holds the locks of a list by an ExitStack, and waits for the end of one that enters one of them by `with`, in a statement that enters another lock first."""
import contextlib
import threading

locks, own = [threading.Lock() for _ in range(3)], threading.Lock()
entered = threading.Event()


def work():
    entered.wait()
    with own, locks[1]:
        pass


def hold(stack):
    for lock in locks:
        stack.enter_context(lock)


worker = threading.Thread(target=work, name='worker')
worker.start()
with contextlib.ExitStack() as stack:
    hold(stack)
    entered.set()
    worker.join()

"""A lock that is given back in the midst of its with-statement, while another thread has it."""
import threading
import time

lock = threading.Lock()
is_free, is_taken, begun = threading.Event(), threading.Event(), threading.Event()


def gives_back():
    with lock:
        lock.release()
        is_free.set()
        begun.wait()
        waiter.join()
        lock.acquire()


def has_it():
    is_free.wait()
    lock.acquire()
    is_taken.set()
    time.sleep(1.5)
    lock.release()


def waits():
    with lock:
        pass


waiter = threading.Thread(target=waits, name='waiter')
threads = [threading.Thread(target=work, name=work.__name__) for work in (gives_back, has_it)]
for thread in threads:
    thread.start()
is_taken.wait()
waiter.start()
begun.set()
for thread in threads:
    thread.join()
print('end')

"""Comes to its end: two threads wait crosswise with a limit, one comes late to a barrier, one waits for an event that main sets late, and a lock is given back by another
thread than the one that took it."""
import queue
import threading
import time

left, right, late = threading.Barrier(2), threading.Barrier(2), threading.Barrier(2)
event, handed, items = threading.Event(), threading.Lock(), queue.Queue()


def cross(barrier):
    try:
        barrier.wait(1)
    except threading.BrokenBarrierError:
        pass


def give_back():
    time.sleep(0.5)
    handed.release()


threads = [threading.Thread(target=f) for f in (lambda: cross(left), lambda: cross(right), late.wait, event.wait, items.get, give_back)]
handed.acquire()
for thread in threads:
    thread.start()
handed.acquire()
time.sleep(0.7)
event.set()
items.put(1)
late.wait()
for thread in threads:
    thread.join()
print('end')

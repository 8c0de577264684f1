"""Threads that fork at the same time, again and again; then two take two locks in opposite order."""
import os
import threading

left, right = threading.Lock(), threading.Lock()
both = threading.Barrier(2)


def fork():
    child = os.fork()
    if child == 0:
        os._exit(0)
    os.waitpid(child, 0)


def take(first, second):
    with first:
        both.wait()
        with second:
            pass


for turn in range(10):
    forking = [threading.Thread(target=fork) for _ in range(16)]
    for thread in forking:
        thread.start()
    for thread in forking:
        thread.join()
taking = [threading.Thread(target=take, args=locks, name=name) for name, locks in (('one', (left, right)), ('two', (right, left)))]
for thread in taking:
    thread.start()
for thread in taking:
    thread.join()

"""Threads that take long to begin: one comes to the barrier with a lock that the other one needs before it comes there."""
import threading
import time

meet = threading.Barrier(2)
account = threading.Lock()


class Slow(threading.Thread):
    def _set_ident(self):
        time.sleep(0.5)
        super()._set_ident()


def come():
    with account:
        meet.wait()


for name in ('holder', 'needer'):
    Slow(target=come, name=name).start()

"""One thread comes to the barrier with a lock that the other one needs before it comes there."""
import threading
import time

meet = threading.Barrier(2)
account = threading.Lock()


def come():
    with account:
        meet.wait()


threading.Thread(target=come, name='holder').start()
time.sleep(0.1)
threading.Thread(target=come, name='needer').start()

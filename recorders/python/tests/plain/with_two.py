"""Two threads enter two locks in opposite order, each by one statement."""
import threading
import time

left, right = threading.Lock(), threading.Lock()


class Slowly:
    def __enter__(self):
        time.sleep(0.3)

    def __exit__(self, *reason):
        pass


def one():
    with left, Slowly(), right:
        pass


def other():
    with right, Slowly(), left:
        pass


threading.Thread(target=one, name='one').start()
threading.Thread(target=other, name='other').start()

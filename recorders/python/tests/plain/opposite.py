"""Two barriers, met in opposite order."""
import threading

left = threading.Barrier(2)
right = threading.Barrier(2)


def other():
    right.wait()
    left.wait()


threading.Thread(target=other, name='other').start()
left.wait()
right.wait()

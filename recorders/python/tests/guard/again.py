"""The same wait is refused five thousand times, since nobody looks at why. It is told once, and at the end how often."""
import threading

import armus

lock = threading.Lock()
with lock:
    for _ in range(5000):
        try:
            with lock:
                print('taken twice')
        except armus.DeadlockError:
            pass
print('end')

"""Comes to its end: closes all files behind the first three, as a daemon does, opens one of its own, puts it under many numbers, and meets a late thread."""
import os
import resource
import tempfile
import threading
import time

met = threading.Barrier(2)
late = threading.Thread(target=lambda: (time.sleep(0.5), met.wait()))
late.start()
time.sleep(0.2)
os.closerange(3, 100000)
number, name = tempfile.mkstemp()
os.unlink(name)
for other in range(number + 1, min(resource.getrlimit(resource.RLIMIT_NOFILE)[0], 65536)):
    os.dup2(number, other)
met.wait()
late.join()
time.sleep(0.2)
print('written', os.lseek(number, 0, os.SEEK_END))

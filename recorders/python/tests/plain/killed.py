"""Is ended by a signal of its own while a thread waits for main."""
import os
import signal
import threading
import time

threading.Thread(target=threading.Barrier(2).wait).start()
time.sleep(0.4)
print('before', flush=True)
os.kill(os.getpid(), signal.SIGKILL)

"""Comes to its end: while a thread waits for main, children are made by subprocess, os.fork and os.system, and this program becomes another one at last."""
import os
import subprocess
import sys
import threading
import time

met = threading.Barrier(2)
threading.Thread(target=met.wait, daemon=True).start()
time.sleep(0.2)
print(subprocess.run([sys.executable, '-c', 'import threading; t = threading.Thread(target=print, args=("child",)); t.start(); t.join(); raise SystemExit(3)']).returncode, flush=True)
child = os.fork()
if child == 0:
    os._exit(7)
print(os.waitpid(child, 0)[1], flush=True)
print(os.system('kill -9 $$'), flush=True)
os.execv(sys.executable, [sys.executable, '-c', 'print("end"); raise SystemExit(5)'])

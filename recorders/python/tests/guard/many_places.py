"""Waits are refused in twelve hundred lines. Those of a thousand are told by themselves."""
import threading

lock = threading.Lock()
with lock:
    for line in range(1200):
        again = '\n' * line + 'try:\n    with lock:\n        print("taken twice")\nexcept RuntimeError:\n    pass'
        exec(compile(again, 'many.py', 'exec'))
print('end')

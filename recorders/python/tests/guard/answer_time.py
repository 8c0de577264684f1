"""Asks for a lock that another thread has again and again, as a call that takes it would, and writes in tenths of a microsecond the least time and the middle one: of a
question with its answer, and with the lines behind the wait."""
import sys
import threading
import time

TIMES = 3000
guard = sys.modules['_armus_guard']
lock, is_held, end = threading.Lock(), threading.Event(), threading.Event()


def hold():
    with lock:
        is_held.set()
        end.wait()


threading.Thread(target=hold, name='holder').start()
is_held.wait()
task, took = guard.current_task(), []
for _ in range(TIMES):
    begun = time.perf_counter()
    lock._keeper_of(task.life).wait(task, lambda: lock._holder, lambda: None)
    took.append(time.perf_counter() - begun)
took.sort()
print(int(took[0] * 1e7), int(took[TIMES // 2] * 1e7))
end.set()

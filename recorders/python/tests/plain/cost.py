"""What operations cost: the least of many rounds, in tenths of a nanosecond."""
import threading
import time

ROUNDS, TIMES = 30, 2000
barrier, lock, recursive, event = threading.Barrier(1), threading.Lock(), threading.RLock(), threading.Event()
event.set()


def with_lock(held):
    with held:
        pass


def least(operation, *words):
    found = []
    for _ in range(ROUNDS):
        begun = time.perf_counter_ns()
        for _ in range(TIMES):
            operation(*words)
        found.append((time.perf_counter_ns() - begun) * 10 // TIMES)
    return min(found)


threading.Thread(target=time.sleep, args=(3600,), daemon=True).start()
print('barrier', least(barrier.wait))
print('lock', least(with_lock, lock))
print('rlock', least(with_lock, recursive))
print('event', least(event.wait))

"""Comes to its end: a thousand threads begin, meet and end, and then a thousand one behind the other."""
import threading

MANY = 1000
met, lock, count = threading.Barrier(MANY), threading.Lock(), 0


def counts():
    global count
    with lock:
        count += 1


threading.stack_size(131072)
threads = [threading.Thread(target=met.wait) for _ in range(MANY)]
for thread in threads:
    thread.start()
for thread in threads:
    thread.join()
for _ in range(MANY):
    thread = threading.Thread(target=counts)
    thread.start()
    thread.join()
print(count, threading.active_count())

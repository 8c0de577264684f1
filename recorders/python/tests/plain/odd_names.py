"""Threads whose names are like those that the recorder itself gives, and main, which ends their waits."""
import threading
import time

go = threading.Event()
threads = [threading.Thread(target=go.wait, name=name) for name in ('?any-thread', 'main', '?Event-1', 'one,two', '(three)')]
for thread in threads:
    thread.start()
time.sleep(0.5)
go.set()
for thread in threads:
    thread.join()
print('end')

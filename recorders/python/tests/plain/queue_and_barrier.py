"""Main waits at a barrier for a worker that waits for what main would put into a queue."""
import queue
import threading

met, items = threading.Barrier(2), queue.Queue()


def work():
    items.get()
    met.wait()


threading.Thread(target=work, name='worker').start()
met.wait()
items.put(1)

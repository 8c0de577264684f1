"""A service: main waits for an event that the handler of a signal sets. Nothing of it is stuck, since a signal from outside may end it."""
import signal
import threading

stop = threading.Event()
signal.signal(signal.SIGTERM, lambda *_: stop.set())
worker = threading.Thread(target=stop.wait)
worker.start()
stop.wait()
worker.join()
print('stopped')

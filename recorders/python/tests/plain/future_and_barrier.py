"""Main asks for the result of a task before it comes to the barrier at which the task waits for it."""
import concurrent.futures
import threading

met = threading.Barrier(2)
with concurrent.futures.ThreadPoolExecutor(1, 'pool') as pool:
    print(pool.submit(met.wait).result())
    met.wait()

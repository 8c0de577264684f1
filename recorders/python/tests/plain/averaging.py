"""The main thread is counted as a party of the barrier of its workers, and waits at another one for their end."""
import threading

pc = threading.Barrier(4)
pb = threading.Barrier(4)


def work():
    for _ in range(4):
        pc.wait()
    pb.wait()


for i in range(3):
    threading.Thread(target=work, name=f'worker-{i}').start()
pb.wait()

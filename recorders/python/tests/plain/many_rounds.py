"""Two workers meet a thousand times, and then one of them goes once more."""
import threading

b = threading.Barrier(2)


def work(rounds):
    for _ in range(rounds):
        b.wait()


for i in range(2):
    threading.Thread(target=work, args=(1000 + i,), name=f'worker-{i}').start()

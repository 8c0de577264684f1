"""A program that a number decides: threads that do what it says at barriers, locks, an event, a semaphore and a queue. Each says when it has ended."""
import os
import queue
import random
import sys
import threading
import time

any_of = random.Random(int(sys.argv[1]))
barriers = [threading.Barrier(any_of.randint(1, 3)) for _ in range(3)]
locks = [threading.Lock(), threading.RLock(), threading.Lock()]
event, semaphore, box = threading.Event(), threading.Semaphore(1), queue.Queue()
VERBS = ['barrier'] * 2 + ['timed'] + ['lock'] * 5 + ['take', 'wait', 'set', 'set', 'acquire', 'release', 'get', 'put', 'put']


def say(text):
    os.write(1, f'{text}\n'.encode())


def act(steps):
    for n, (verb, which, pause) in enumerate(steps):
        time.sleep(pause)
        if verb == 'barrier':
            barriers[which].wait()
        elif verb == 'timed':
            barriers[which].wait(0.01)
        elif verb == 'lock':
            with locks[which]:
                act(steps[n + 1:])
            return
        elif verb == 'take':
            locks[which].acquire()
        elif verb == 'wait':
            event.wait()
        elif verb == 'set':
            event.set()
        elif verb == 'acquire':
            semaphore.acquire()
        elif verb == 'release':
            semaphore.release()
        elif verb == 'get':
            box.get()
        else:
            box.put(which)


def work(name, steps):
    try:
        act(steps)
    except threading.BrokenBarrierError:
        pass
    say(f'{name} ended')


threads = []
for letter in 'abcde'[:any_of.randint(2, 5)]:
    steps = [(any_of.choice(VERBS), any_of.randrange(3), any_of.random() / 100) for _ in range(any_of.randint(1, 4))]
    threads.append(threading.Thread(target=work, args=(f'worker-{letter}', steps), name=f'worker-{letter}'))
for thread in threads:
    say(f'{thread.name} begins')
    thread.start()
for thread in threads:
    thread.join()

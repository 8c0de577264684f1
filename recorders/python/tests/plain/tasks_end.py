"""Comes to its end: tasks of asyncio that wait for one another, for times, for a thread, for a pipe and for a child, each of them late."""
import asyncio
import sys
import threading
import time


class Barrier:
    """That of Python 3.11, for an older one."""
    def __init__(self, parties):
        self.missing, self.complete = parties, asyncio.Event()

    async def wait(self):
        self.missing -= 1
        if self.missing == 0:
            self.complete.set()
        await self.complete.wait()


async def late(barrier, event, seconds):
    await asyncio.sleep(seconds)
    event.set()
    await barrier.wait()
    return seconds


async def limited(lock):
    try:
        await asyncio.wait_for(lock.acquire(), 0.4)
    except asyncio.TimeoutError:
        return 'too late'


def wakes(loop, future):
    time.sleep(0.4)
    loop.call_soon_threadsafe(future.set_result, 'woken')


async def main():
    barrier, event, lock, queue = getattr(asyncio, 'Barrier', Barrier)(3), asyncio.Event(), asyncio.Lock(), asyncio.Queue()
    tasks = [asyncio.create_task(late(barrier, event, 0.2 * i)) for i in range(3)]
    await event.wait()
    print(await asyncio.gather(*tasks))
    await lock.acquire()
    print(await limited(lock))
    loop = asyncio.get_running_loop()
    future = loop.create_future()
    threading.Thread(target=wakes, args=(loop, future)).start()
    print(await future)
    threading.Thread(target=lambda: (time.sleep(0.4), loop.call_soon_threadsafe(queue.put_nowait, 'queued'))).start()
    print(await queue.get())
    print(await loop.run_in_executor(None, lambda: time.sleep(0.4)))
    child = await asyncio.create_subprocess_exec(sys.executable, '-c', 'import time; time.sleep(0.4); print("child")', stdout=asyncio.subprocess.PIPE)
    print(await child.stdout.read(), await child.wait())

asyncio.run(main())
print('end')

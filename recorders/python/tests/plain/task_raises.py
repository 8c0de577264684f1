"""Two of three tasks are deadlocked. Main waits for the three, and is not stuck, since the third one may still raise an exception."""
import asyncio
import threading
import time


async def lock(first, second):
    async with first:
        await asyncio.sleep(0.1)
        async with second:
            pass


async def raises(loop):
    late = loop.create_future()
    threading.Thread(target=lambda: (time.sleep(3600), loop.call_soon_threadsafe(late.set_exception, ValueError())), daemon=True).start()
    await late


async def main():
    x, y = asyncio.Lock(), asyncio.Lock()
    await asyncio.gather(lock(x, y), lock(y, x), raises(asyncio.get_running_loop()))


asyncio.run(main())

"""Two tasks of asyncio take two locks in opposite order; a thread waits for one of the tasks."""
import asyncio
import threading


async def lock(first, second, met):
    async with first:
        await met.wait()
        async with second:
            pass


async def main():
    x, y, met = asyncio.Lock(), asyncio.Lock(), asyncio.Event()
    one = asyncio.create_task(lock(x, y, met), name='one')
    asyncio.create_task(lock(y, x, met), name='other')
    waiting = asyncio.run_coroutine_threadsafe(asyncio.sleep(0), asyncio.get_running_loop())
    threading.Thread(target=waiting.result, name='asks', daemon=True).start()
    await asyncio.sleep(0.2)
    met.set()
    await one

asyncio.run(main())

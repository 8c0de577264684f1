"""Two tasks take two locks in opposite order, without a with-statement, and main waits for both."""
import asyncio


async def work(first, second, pause):
    await first.acquire()
    try:
        await asyncio.sleep(pause)
        await second.acquire()
        second.release()
    finally:
        first.release()


async def main():
    x, y = asyncio.Lock(), asyncio.Lock()
    await asyncio.gather(work(x, y, 0.1), work(y, x, 0.1))


asyncio.run(main())

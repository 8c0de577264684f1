"""A task waits until all of a queue is done, another one for room in it, and main for both."""
import asyncio


async def puts(queue):
    await queue.put(1)
    await queue.put(2)


async def joins(queue):
    await queue.join()


async def main():
    queue = asyncio.Queue(1)
    await asyncio.wait([asyncio.ensure_future(puts(queue)), asyncio.ensure_future(joins(queue))])


asyncio.run(main())

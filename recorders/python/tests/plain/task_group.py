"""Two tasks of a group wait for somebody to put something into a queue, and main for the end of the group."""
import asyncio


async def takes(queue):
    await queue.get()


async def main():
    queue = asyncio.Queue()
    if hasattr(asyncio, 'TaskGroup'):
        async with asyncio.TaskGroup() as group:
            group.create_task(takes(queue))
            group.create_task(takes(queue))
    else:
        await asyncio.gather(takes(queue), takes(queue))


asyncio.run(main())

"""Two tasks of asyncio meet at two barriers in opposite order; main waits for both."""
import asyncio


def met(barrier):
    return barrier.wait() if hasattr(barrier, 'wait') else barrier.get()


async def cross(first, second):
    await met(first)
    await met(second)


async def main():
    left, right = (asyncio.Barrier(2), asyncio.Barrier(2)) if hasattr(asyncio, 'Barrier') else (asyncio.Queue(), asyncio.Queue())   # Python 3.11 has barriers
    one = asyncio.create_task(cross(left, right), name='one')
    await asyncio.gather(one, asyncio.create_task(cross(right, left), name='other'))

asyncio.run(main())

"""Two threads enter two locks in opposite order, each by an ExitStack of its own."""
import contextlib
import threading

left, right = threading.Lock(), threading.Lock()
both = threading.Barrier(2)


def work(first, second):
    with contextlib.ExitStack() as stack:
        stack.enter_context(first)
        both.wait()
        stack.enter_context(second)


threading.Thread(target=work, args=(right, left), name='other').start()
work(left, right)

"""What a Python program says to `armus-run --guard`, and what the guard says to it. Without the guard member() does nothing, and nothing is raised. One file: copy it beside
your program where that also runs without armus-run; with --guard it is found in any case."""
import sys
import threading

_guard = sys.modules.get('_armus_guard')

if _guard is not None:
    DeadlockError, BarrierDeadlockError, member = _guard.DeadlockError, _guard.BarrierDeadlockError, _guard.member
else:
    class DeadlockError(RuntimeError):
        """A wait that would never end. Its text says who would wait for whom."""

    class BarrierDeadlockError(DeadlockError, threading.BrokenBarrierError):
        """The same at a barrier, which is broken then."""

    def member(barrier, thread=None):
        """Says that the current thread, or another one, belongs to a barrier."""

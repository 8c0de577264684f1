"""The guard of a Python program: a thread asks before it waits, and gets an exception where its wait would never end. The locks that the program makes, Thread.join,
Barrier.wait and Future.result are replaced; what the standard library makes for itself is not.

A thread that has to wait is registered at what it waits for, asks, and then waits as it would without this module. Whoever takes a lock, starts a task of a pool or ends
one says so where others are registered there, on behalf of them too. All of this stands under one lock, `order`, which is never held while the program's code runs or while
an answer is awaited."""
import _signal
import _thread
import os
import socket
import stat
import struct
import sys
import threading
from time import monotonic

LIMIT = 10.0                # so many seconds an answer may take, and the writing of a line
STANDARD = os.path.dirname(os.__file__) + os.sep
ADDED = (os.path.join(STANDARD, 'site-packages'), os.path.join(STANDARD, 'dist-packages'))
real_lock = _thread.allocate_lock


class DeadlockError(RuntimeError):
    """A wait that would never end. Its text says who would wait for whom."""


class BarrierDeadlockError(DeadlockError, threading.BrokenBarrierError):
    """The same at a barrier, which is broken then."""


for _kind in (DeadlockError, BarrierDeadlockError):
    _kind.__module__ = 'armus'


# ---- places and names
def is_standard(file):
    return file.startswith('<frozen') or file == __file__ or file.startswith(STANDARD) and not file.startswith(ADDED)


def own_frame():
    """The innermost frame of the program's own."""
    frame = sys._getframe(1)
    while frame.f_back is not None and is_standard(frame.f_code.co_filename):
        frame = frame.f_back
    return frame


def place():
    frame = own_frame()
    return f'{os.path.basename(frame.f_code.co_filename)}:{frame.f_lineno}'[:200]


def named(text):
    text = ''.join(c if '!' <= c <= '~' and c not in '/,;()' else '_' for c in text)[:30] or '_'
    return '_' + text[1:] if text[0] == '?' else text          # those of wildcards begin with '?'


class Task:
    """A thread, as the monitor knows it."""

    def __init__(self, life, name):
        self.life, self.name = life, name
        self.asked = self.answered = self.wanted = 0       # wait lines that were written, answers that were read, the one for which the thread waits
        self.refused = {}                                  # the sentence of each refused question
        self.waits = self.busy = self.ended = self.was_refused = self.may_ask = False
        self.place, self.turn, self.event = '', 0, ''      # of its wait: where it stands, the turn of its keeper, and for what it waits
        self.left = []                                     # the barriers that it leaves as soon as it does not wait any more
        self.answer = real_lock()
        self.answer.acquire()
        self.barriers = []                                 # those to which it belongs
        self.untold = []                                   # what it has taken while others wait for it: told as soon as it waits itself

    def wake(self):
        try:
            self.answer.release()
        except RuntimeError:                               # it was woken already
            pass

    def awaits_answer(self):
        return self.answered < self.wanted and not self.life.off

    def is_there(self):
        return self.life is Life.current and not self.ended and not self.life.off


class Life:
    """The guard in one process: from its first thread to its end, or to a fork."""
    current = None

    def __init__(self):
        self.order, self.off, self.tasks, self.by_name, self.numbers = real_lock(), False, {}, {}, {}
        self.process = f'{os.getpid()}'
        self.connection = self.writer = None
        self.reading, self.waiting, self.kept, self.was_told = real_lock(), {}, b'', False

    # ---- lines
    def connect(self):
        """Reaches the launcher."""
        self.connection = socket.socket(socket.AF_UNIX)
        try:
            self.connection.connect(os.environ['ARMUS_SOCKET'].split('|')[0])
            self.connection = socket.socket(fileno=moved_file(self.connection.detach()))
            for limit in (socket.SO_SNDTIMEO, socket.SO_RCVTIMEO):
                self.connection.setsockopt(socket.SOL_SOCKET, limit, struct.pack('ll', int(LIMIT), 0))
        except OSError:
            self.off = True
            return
        self.is_same = self.identity()
        self.write([f'# process {self.process}/'])

    def identity(self):
        found = os.fstat(self.connection.fileno())
        return found.st_dev, found.st_ino, stat.S_ISSOCK(found.st_mode)

    def write(self, lines):
        """Called with the order held, or by the first thread."""
        if self.off or not lines:
            return
        data = ''.join(line + '\n' for line in lines).encode('latin-1', 'replace')
        try:
            if self.identity() != self.is_same:
                self.connection.detach()
            elif self.connection.send(data, socket.MSG_NOSIGNAL) == len(data):     # in the time that the socket has for it
                return
        except (OSError, ValueError):
            pass
        self.end(None if self.was_let_go() else 'a line could not be written')

    def was_let_go(self):
        """Whether the launcher has said that no answer comes any more, which nobody has read yet."""
        try:
            return self.was_told or self.identity() == self.is_same and (b'\n' + self.connection.recv(65536, socket.MSG_DONTWAIT)).endswith(b'\noff\n')
        except OSError:
            return False

    def await_answer(self, task):
        """Reads until the answer of the current thread is there, or waits until another one has read it: so one thread has to wake for an answer, and no other."""
        end = monotonic() + LIMIT
        self.waiting[task.name] = task
        try:
            if self.reading.acquire(False):
                try:
                    while task.awaits_answer() and monotonic() < end:
                        self.read()
                finally:
                    self.reading.release()
            else:
                task.answer.acquire(timeout=LIMIT)
            if monotonic() >= end and task.awaits_answer():
                self.end(f'no answer came in {LIMIT:.0f} seconds')
        finally:
            self.waiting.pop(task.name, None)
            for other in list(self.waiting.values())[:1]:
                other.wake()                               # it may read now

    def read(self):
        """Hands out the answers that are there, once one is; or the time is over that the socket has for it."""
        try:
            got = self.connection.recv(65536) if self.identity() == self.is_same else b''
        except BlockingIOError:
            return
        except OSError:
            got = b''
        if not got:
            self.end(None if self.was_told else 'no answer comes any more')
        self.kept += got
        while b'\n' in self.kept:
            line, _, self.kept = self.kept.partition(b'\n')
            self.hand_out(line.decode('latin-1'))

    def hand_out(self, line):
        word, _, rest = line.partition(' ')
        self.was_told = self.was_told or word == 'off'
        name, _, sentence = rest.partition(': ')
        task = self.by_name.get(name)
        if task is not None:
            if word == 'refuse':
                task.refused[task.answered + 1] = sentence
            elif word == 'fault':
                task.refused[task.answered + 1] = None
            task.answered += 1
            if task.answered == task.wanted:
                task.wake()
            if task.ended and task.answered == task.asked:
                self.by_name.pop(name, None)               # no answer has this name any more

    def end(self, why):
        """Nothing is asked any more: everybody may wait."""
        if self.off or self is not Life.current:
            return
        self.off = True
        word = f'armus: {why}: from now on every wait of process {self.process} is let through\n'
        for last in (lambda: os.write(2, word.encode()), self.leaves) if why else ():
            try:
                last()
            except (OSError, ValueError):
                pass
        for task in list(self.by_name.values()):
            if task.answered < task.wanted:
                task.wake()

    def leaves(self):
        """Says that nothing is asked any more; who reads need not wait for more."""
        if self.identity() == self.is_same:
            self.connection.shutdown(socket.SHUT_RD)
            self.connection.send(b'# off\n', socket.MSG_DONTWAIT | socket.MSG_NOSIGNAL)

    # ---- tasks
    def number(self, kind):
        self.numbers[kind] = self.numbers.get(kind, 0) + 1
        return self.numbers[kind]

    def new_task(self, name):
        """Called with the order held, or by the first thread. A name that is there already gets a number."""
        base, k = named(name), 1
        full = f'{self.process}/{base}'
        while full in self.by_name:
            k += 1
            full = f'{self.process}/{base}_{k}'
        task = self.by_name[full] = Task(self, full)
        self.write([f'{full} join {task_end(task)} 0 @{place()}'])
        return task

    def task_of(self, thread):
        """Called with the order held. The task of a thread; a thread that was not seen to begin has one from now on, and no end."""
        task = getattr(thread, '_armus_task', None)
        if task is None or task.life is not self:
            task = thread._armus_task = self.new_task('main' if thread is threading.main_thread() else thread.name)
            if thread.ident is not None:
                self.tasks[thread.ident] = task
        return task


def task_end(task):
    process, _, name = task.name.partition('/')
    return f'{process}/end-of-{name}'


def moved_file(number):
    """The file under a number that the program is not likely to meet."""
    import fcntl
    import resource
    limit = resource.getrlimit(resource.RLIMIT_NOFILE)[0]
    high = min(limit if limit > 0 else 65536, 65536)
    try:
        other = fcntl.fcntl(number, fcntl.F_DUPFD_CLOEXEC, high - high // 16)
    except OSError:
        return number
    os.close(number)
    return other


def living():
    """The life of this process, or nothing where the guard is off."""
    life = Life.current
    if life is None:
        life = Life.current = Life()
        life.connect()
        with life.order:
            life.task_of(threading.main_thread())
    return None if life.off else life


class Ordered:
    """The order is held within. Where it cannot be had in time, as in a handler that came while its own thread held it, the guard ends."""
    __slots__ = ('life', 'lines')

    def __init__(self, life):
        self.life, self.lines = life, []

    def __enter__(self):
        if self.life.writer == _thread.get_ident() or not self.life.order.acquire(timeout=LIMIT):
            self.life.end('the order of lines could not be had in time')
            raise Off
        self.life.writer = _thread.get_ident()
        return self.lines

    def __exit__(self, kind, value, trace):
        try:
            if kind is None:
                self.life.write(self.lines)
            else:
                self.life.end('a thread was interrupted while it wrote')
        finally:
            self.life.writer = None
            self.life.order.release()


class Off(Exception):
    """The guard has ended meanwhile."""


class Entered:
    """The current thread, as one that asks: nothing where the guard is off, or the thread is not known, or is inside of the guard already (in a handler or a finalizer)."""
    __slots__ = ('task',)

    def __enter__(self):
        life = living()
        task = life.tasks.get(_thread.get_ident()) if life is not None else None
        self.task = task if task is not None and not (task.busy or task.waits or task.ended) else None
        if self.task is not None:
            self.task.busy = True
        return self.task

    def __exit__(self, *_):
        if self.task is not None:
            self.task.busy = False


def may_go_on_by_handlers():
    """Whether a handler of the program's own may let the main thread go on."""
    if _thread.get_ident() != threading.main_thread().ident:
        return False
    own = sum(map(callable, map(_signal.getsignal, range(1, _signal.NSIG))))
    return own > (_signal.getsignal(_signal.SIGINT) is _signal.default_int_handler)


# ---- a wait
def tells_untold(task, lines):
    """Who waits for what the task has taken."""
    untold, task.untold = task.untold, []
    for keeper in untold:
        keeper.is_told(task, lines)


def question(task, phaser, phase, lines):
    """Adds the question of a task; called with the order held. First it is told who waits for this one."""
    tells_untold(task, lines)
    task.waits, task.event = True, f'{phaser} {phase}'
    task.asked += 1
    lines.append(f'{task.name} wait {task.event} @{task.place}')


def own_question(task, phaser, phase, lines):
    """The question of the current thread, which takes the answer."""
    question(task, phaser, phase, lines)
    task.wanted = task.asked


def goes_on(task, lines):
    if task.waits:
        task.waits = False
        lines.append(f'{task.name} go')
    lines += [f'{task.name} leave {name}' for name in task.left]
    task.left = []


def moves(task, line, lines):
    """A line of a task that may wait: it is taken out of its wait meanwhile."""
    if task.waits:
        lines += [f'{task.name} go', line, f'{task.name} wait {task.event} @{task.place}']
        task.asked += 1
    else:
        lines.append(line)


def is_over(task):
    """The wait of the current thread has ended."""
    if (task.waits or task.left) and task.is_there():
        try:
            with Ordered(task.life) as lines:
                goes_on(task, lines)
        except Off:
            pass


def answered(task):
    """The sentence by which the question was refused, or nothing. Called without the order; what a handler raises meanwhile is raised once the answer is there."""
    raised = None
    while task.awaits_answer():
        try:
            task.life.await_answer(task)
        except BaseException as e:
            raised = e
    if task.wanted not in task.refused:
        sentence = None
    else:
        sentence, task.waits = task.refused.pop(task.wanted), False
    if raised is not None:
        is_over(task)
        raise raised
    task.was_refused = task.was_refused or sentence is not None
    return sentence


class Keeper:
    """Of what one thread has to end: a lock to be given back, a task of a pool. Those that wait there are registered; the one that has to act is played by a wildcard."""
    __slots__ = ('life', 'name', 'turn', 'holder', 'tasks')

    def __init__(self, life, kind):
        self.life, self.name, self.turn, self.holder, self.tasks = life, f'{kind}-{life.number(kind)}', 0, None, []

    def phaser(self):
        return f'{self.life.process}/{self.name}.{self.turn}'

    def wildcard(self):
        return f'{self.life.process}/?{self.name}.{self.turn}'

    def is_held_by(self, holder, lines):
        """From now on this one has to act."""
        self.is_free(lines)
        self.turn += 1
        self.holder = holder
        lines += [f'{self.wildcard()} of {holder.name}', f'{self.wildcard()} join {self.phaser()} 0']

    def is_free(self, lines):
        if self.holder is not None:
            lines.append(f'{self.wildcard()} end')
            self.holder = None

    def is_told(self, holder, lines):
        """The holder has to act, and the others wait for it. None of these questions is refused, since the holder runs, for the monitor too. Whoever has no answer to its own
        question yet looks again itself."""
        if self.holder is not holder:
            self.is_held_by(holder, lines)
        for task in self.tasks:
            if task.may_ask and not task.awaits_answer() and not (task.waits and task.turn == self.turn):
                goes_on(task, lines)
                question(task, self.phaser(), 1, lines)
                task.turn = self.turn

    def enters(self, task, holder, lines):
        """Registers the current thread. Where it is known who has to act it asks, behind all that others ask because of it."""
        tells_untold(task, lines)
        self.tasks.append(task)
        task.place, task.may_ask = place(), not may_go_on_by_handlers()
        if task.may_ask and holder is not None and holder.is_there():
            if self.holder is not holder:
                self.is_held_by(holder, lines)
            self.asks(task, lines)

    def asks(self, task, lines):
        own_question(task, self.phaser(), 1, lines)
        task.turn = self.turn

    def leaves(self, task, lines):
        self.tasks.remove(task)
        goes_on(task, lines)
        if not self.tasks:
            self.is_free(lines)

    def sentence(self, task):
        """Awaits the answer of the current thread, and asks again where somebody else has to act meanwhile."""
        while True:
            sentence = answered(task)
            if sentence is not None or not task.is_there():
                return sentence
            with Ordered(self.life) as lines:
                if self.holder is None or not task.waits or task.turn == self.turn:
                    return None
                goes_on(task, lines)
                self.asks(task, lines)

    def wait(self, task, holder, waits):
        """The current thread waits here by a call; `holder` is read with the order held. Where it is refused it does not."""
        try:
            with Ordered(self.life) as lines:
                self.enters(task, holder(), lines)
        except Off:
            return waits()
        try:
            sentence = self.sentence(task)
            if sentence is not None:
                raise DeadlockError(sentence)
            return waits()
        except Off:
            return waits()
        finally:
            self.is_left_by(task)

    def is_left_by(self, task):
        if task.is_there():
            try:
                with Ordered(self.life) as lines:
                    self.leaves(task, lines)
            except Off:
                pass


# ---- locks
TRIED = {}


def is_tried(frame):
    """Whether this line takes a lock, and directly behind it stands a try whose finally gives the same lock back."""
    file = frame.f_code.co_filename
    if file not in TRIED:
        TRIED[file] = set(tried_lines(file))
    return frame.f_lineno in TRIED[file]


def tried_lines(file):
    import ast
    try:
        with open(file, 'rb') as opened:
            tree = ast.parse(opened.read())
    except (OSError, SyntaxError, ValueError, RecursionError, MemoryError):
        return
    for node in ast.walk(tree):
        for _, body in ast.iter_fields(node):
            for one, two in zip(body, body[1:]) if isinstance(body, list) else ():
                lock = called(one, 'acquire')
                if lock is not None and isinstance(two, ast.Try) and any(called(last, 'release') == lock for last in two.finalbody):
                    yield from range(one.lineno, one.end_lineno + 1)


def called(node, name):
    """Of a call of a method of this name, without a word: the text of its object."""
    import ast
    call = node.value if isinstance(node, ast.Expr) else None
    is_it = isinstance(call, ast.Call) and not call.args and isinstance(call.func, ast.Attribute) and call.func.attr == name
    return ast.dump(call.func.value) if is_it else None


def current_task():
    life = living()
    task = life.tasks.get(_thread.get_ident()) if life is not None else None
    return task if task is not None and not task.ended else None


def gives_back(keeper, holder):
    """The holder need not act any more."""
    if keeper in holder.untold:
        holder.untold.remove(keeper)
    if keeper.holder is holder and holder.is_there():
        try:
            with Ordered(keeper.life) as lines:
                if keeper.holder is holder:
                    keeper.is_free(lines)
        except Off:
            pass


class Taken:
    """What both sorts of lock have: a real lock, who took it where it is known that this one gives it back, and who waits for it."""
    __slots__ = ('_real', '_holder', '_keeper', '__weakref__')

    def _takes(self, is_known):
        """Takes it for the current thread, which may wait."""
        if self._real.acquire(False):
            self._is_taken(is_known)
            return
        with Entered() as task:
            if task is None:
                self._real.acquire()
                self._holder = None
            else:
                self._keeper_of(task.life).wait(task, lambda: self._holder, lambda: self._real.acquire())
                self._is_taken(is_known)

    def _keeper_of(self, life):
        if self._keeper is None or self._keeper.life is not life:
            self._keeper = Keeper(life, 'lock')
        return self._keeper

    def _is_taken(self, is_known):
        """The current thread has it. Others may wait for it already: as long as this thread runs nobody has to know that they wait for this one."""
        self._holder = holder = current_task() if is_known else None
        keeper = self._keeper
        if keeper is not None and keeper.tasks and holder is not None and keeper.life is holder.life:
            holder.untold.append(keeper)

    def _gives_back(self):
        holder, keeper = self._holder, self._keeper
        self._holder = None
        self._real.release()
        if keeper is not None and holder is not None:
            gives_back(keeper, holder)

    def locked(self):
        return self._real.locked()

    def __repr__(self):
        return f'<{"locked" if self._real.locked() else "unlocked"} _thread.{type(self).__name__.lower()} object at {id(self):#x}>'


class Lock(Taken):
    """A lock of the program's own. What the standard library makes for itself is a plain one."""
    __slots__ = ()

    def __new__(cls):
        if is_standard(sys._getframe(1).f_code.co_filename):
            return real_lock()
        self = object.__new__(cls)
        self._real, self._holder, self._keeper = real_lock(), None, None
        return self

    def acquire(self, blocking=True, timeout=-1):
        if not blocking or timeout != -1:
            if not self._real.acquire(blocking, timeout):
                return False
            self._is_taken(False)
        else:
            self._takes(is_tried(sys._getframe(1)))
        return True

    def __enter__(self):
        self._takes(sys._getframe(1).f_code.co_name != 'enter_context')      # an ExitStack may hand it on to another thread
        return True

    def release(self):
        self._gives_back()

    def __exit__(self, *_):
        self._gives_back()

    def _at_fork_reinit(self):
        self._real, self._holder, self._keeper = real_lock(), None, None

    acquire_lock, release_lock, locked_lock = acquire, release, Taken.locked


class RLock(Taken):
    """A lock that its owner may take again. Only its owner gives it back."""
    __slots__ = ('_owner', '_count')

    def __new__(cls):
        if is_standard(sys._getframe(1).f_code.co_filename):
            return real_rlock()
        self = object.__new__(cls)
        self._at_fork_reinit()
        return self

    def _at_fork_reinit(self):
        self._real, self._holder, self._keeper, self._owner, self._count = real_lock(), None, None, None, 0

    def acquire(self, blocking=True, timeout=-1):
        me = _thread.get_ident()
        if self._owner == me:
            self._count += 1
            return True
        if not blocking or timeout != -1:
            if not self._real.acquire(blocking, timeout):
                return False
            self._is_taken(True)
        else:
            self._takes(True)
        self._owner, self._count = me, 1
        return True

    __enter__ = acquire

    def release(self):
        if self._owner != _thread.get_ident():
            raise RuntimeError('cannot release un-acquired lock')
        self._count -= 1
        if not self._count:
            self._owner = None
            self._gives_back()

    def __exit__(self, *_):
        self.release()

    # ---- for conditions
    def _release_save(self):
        if not self._count:
            raise RuntimeError('cannot release un-acquired lock')
        state = self._count, self._owner
        self._count, self._owner = 0, None
        self._gives_back()
        return state

    def _acquire_restore(self, state):
        self._real.acquire()
        self._is_taken(True)
        self._count, self._owner = state

    def _is_owned(self):
        return self._owner == _thread.get_ident()

    def _recursion_count(self):
        return self._count if self._is_owned() else 0


real_rlock = threading.RLock


# ---- threads
real_start, real_begin, real_join, real_shutdown = threading.Thread.start, threading.Thread._bootstrap_inner, threading.Thread.join, threading._shutdown


def start(self):
    """A thread is named before it starts."""
    life = living()
    if life is not None and not self._started.is_set():
        if 'concurrent.futures.thread' in sys.modules:
            take_futures()
        try:
            with Ordered(life):
                life.task_of(self)
        except Off:
            pass
    real_start(self)


def begin(self):
    life, task = Life.current, getattr(self, '_armus_task', None)
    if task is None or task.life is not life:
        return real_begin(self)
    life.tasks[_thread.get_ident()] = task
    try:
        real_begin(self)
    finally:
        ends(task)


def ends(task):
    """A thread has ended. One that was refused breaks the barriers to which it belongs: it does not come there any more."""
    try:
        for barrier in task.barriers[:] if task.was_refused else ():
            barrier.abort()
        if task.is_there():
            with Ordered(task.life) as lines:
                for barrier in task.barriers:
                    members_of(barrier, task.life).is_left_by_ended(task, barrier, lines)
                task.ended = True
                lines += [f'{task.name} leave {task_end(task)}', f'{task.name} end']
                if task.answered == task.asked:
                    task.life.by_name.pop(task.name, None)
                task.life.tasks.pop(_thread.get_ident(), None)
    except Off:
        pass


def join(self, timeout=None):
    with Entered() as task:
        other = getattr(self, '_armus_task', None)
        if task is None or other is None or timeout is not None or other is task or may_go_on_by_handlers():
            return real_join(self, timeout)
        try:
            with Ordered(task.life) as lines:
                if other.is_there():
                    task.place = place()
                    own_question(task, task_end(other), 1, lines)
        except Off:
            pass
        sentence = answered(task)
        if sentence is not None:
            raise DeadlockError(sentence)
        try:
            return real_join(self, timeout)
        finally:
            is_over(task)


def shutdown():
    """The main thread has ended, where others go on without it."""
    task = getattr(threading.main_thread(), '_armus_task', None)
    if task is not None and any(t is not threading.main_thread() and not t.daemon for t in threading.enumerate()):
        ends(task)
    return real_shutdown()


# ---- barriers
class Members:
    """Who belongs to a barrier, by their own word. It is known who has to come where they are as many as its parties."""

    def __init__(self, life, barrier):
        self.life, self.number, self.turns = life, life.number('Barrier'), 0
        self.parties = barrier.parties
        self.begin()

    def begin(self):
        """Nobody is known: also behind a break, a reset, and a turn to which others came."""
        self.turns += 1
        self.name = f'{self.life.process}/Barrier-{self.number}' + (f'.{self.turns}' if self.turns > 1 else '')
        self.tasks, self.came, self.turn = [], [], 0

    def are_known(self):
        return len(self.tasks) == self.parties

    def adds(self, task, barrier, may_announce, lines):
        if task in self.tasks:
            return
        if self.are_known():                               # another one in place of those that have ended, or one too many
            has_place = any(other.ended for other in self.tasks)
            self.is_unknown(barrier, lines)
            if not has_place:
                return
        self.tasks.append(task)
        task.barriers.append(barrier)
        moves(task, f'{task.name} join {self.name} {self.turn + (task in self.came)}', lines)
        if self.are_known() and may_announce and self.have_come_alone():
            for other in self.came:                        # who waits there already waits for the one that runs
                if other.may_ask and other in self.tasks and not other.waits:
                    question(other, self.name, self.turn + 1, lines)

    def is_unknown(self, barrier, lines):
        """Whoever waits there goes on, and all leave it."""
        for task in self.tasks:
            if task in self.came and not task.awaits_answer():
                goes_on(task, lines)
            if not task.ended:
                task.left.append(self.name)
                if not task.waits and not task.awaits_answer():
                    goes_on(task, lines)
            if barrier in task.barriers:
                task.barriers.remove(barrier)
        self.begin()

    def is_left_by_ended(self, task, barrier, lines):
        """One that has ended belongs there only where all are known: then the others miss it."""
        if not self.are_known():
            self.tasks.remove(task)
            lines.append(f'{task.name} leave {self.name}')

    def comes(self, task, barrier, has_limit, lines):
        """A thread comes. It asks where it is known who has to come behind it; the last of a turn need not wait."""
        if (self.are_known() and task not in self.tasks) or task in self.came:
            self.is_unknown(barrier, lines)
        self.came.append(task)
        task.may_ask = False
        if task in self.tasks:
            task.place, task.may_ask = place(), not has_limit and not may_go_on_by_handlers()
            lines.append(f'{task.name} arrive {self.name}')
        if len(self.came) == self.parties:
            self.ends_turn(barrier, lines)
        elif self.are_known() and task.may_ask and self.have_come_alone():
            own_question(task, self.name, self.turn + 1, lines)
        return self.state()

    def state(self):
        return self.turns, self.turn

    def have_come_alone(self):
        """Whether nobody else came in this turn."""
        return all(task in self.tasks for task in self.came)

    def ends_turn(self, barrier, lines):
        missed = [task for task in self.tasks if task not in self.came]
        if missed:
            self.is_unknown(barrier, lines)
        else:
            self.turn += 1
            self.came = []


def members_of(barrier, life):
    members = barrier.__dict__.get('_armus_members')
    if members is None or members.life is not life:
        members = barrier.__dict__['_armus_members'] = Members(life, barrier)
    return members


def member(barrier, thread=None):
    """Says that the current thread, or another one, belongs to a barrier."""
    life = living()
    if life is None:
        return
    thread = thread or threading.current_thread()
    runs = thread is threading.current_thread() or not thread._started.is_set()
    try:
        with Ordered(life) as lines:
            members_of(barrier, life).adds(life.task_of(thread), barrier, runs, lines)
    except Off:
        pass


real_wait, real_break, real_reset = threading.Barrier.wait, threading.Barrier._break, threading.Barrier.reset


def wait(self, timeout=None):
    with Entered() as task:
        if task is None or self.broken:
            if not self.broken:
                forgets(self)                                  # one that is not known comes
            return real_wait(self, timeout)
        members = state = None
        try:
            with Ordered(task.life) as lines:
                members = members_of(self, task.life)
                state = members.comes(task, self, timeout is not None or self._timeout is not None, lines)
        except Off:
            pass
        sentence = answered(task)
        if members is not None and members.state() != state:   # all have come meanwhile, or it is not known any more who has to
            is_over(task)
        elif sentence is not None:
            self.abort()
            raise BarrierDeadlockError(sentence)
        try:
            return real_wait(self, timeout)
        finally:
            is_over(task)


def breaks(self):
    """Whoever waits there goes on, before it does."""
    forgets(self)
    real_break(self)


def reset(self):
    forgets(self)
    real_reset(self)


def forgets(barrier):
    life, members = Life.current, barrier.__dict__.get('_armus_members')
    if life is not None and not life.off and members is not None and members.life is life:
        try:
            with Ordered(life) as lines:
                members.is_unknown(barrier, lines)
        except Off:
            pass


# ---- the tasks of a pool
def take_futures():
    """Replaces what a pool of threads does, once it is there."""
    from concurrent.futures import _base, thread
    if hasattr(_base.Future, '_armus_real_result'):
        return
    future, item = _base.Future, thread._WorkItem
    future._armus_real_result = future.result
    future.result, future.exception = waits_for(future.result), waits_for(future.exception)
    for name in ('set_result', 'set_exception', 'cancel'):
        setattr(future, name, ended_by(getattr(future, name)))
    item.run = run_by(item.run)


def keeper_of(future, life):
    """Called with the order held."""
    keeper = future.__dict__.get('_armus_keeper')
    if keeper is None or keeper.life is not life:
        keeper = future.__dict__['_armus_keeper'] = Keeper(life, 'future')
    return keeper


def waits_for(real):
    def waits(self, timeout=None):
        with Entered() as task:
            if task is None or timeout is not None or self.done():
                return real(self, timeout)
            return keeper_of(self, task.life).wait(task, lambda: self.__dict__.get('_armus_runner'), lambda: real(self, None))
    return waits


def ended_by(real):
    def ends_future(self, *words):
        keeper, runner = self.__dict__.get('_armus_keeper'), self.__dict__.pop('_armus_runner', None)
        if keeper is not None and runner is not None:
            gives_back(keeper, runner)
        return real(self, *words)
    return ends_future


def run_by(real):
    def run(self):
        future, runner = self.future, current_task()
        if runner is not None:
            future.__dict__['_armus_runner'] = runner
            keeper = future.__dict__.get('_armus_keeper')
            if keeper is not None and keeper.tasks and keeper.life is runner.life:
                runner.untold.append(keeper)
        return real(self)
    return run


# ---- begin
def before_fork():
    life = Life.current
    if life is not None and not life.off:
        life.order.acquire(timeout=LIMIT)


def behind_fork():
    life = Life.current
    if life is not None and not life.off:
        try:
            life.order.release()
        except RuntimeError:
            pass


def in_child():
    """The child begins anew, with its first thread or lock."""
    life, Life.current = Life.current, None
    if life is not None and life.connection is not None:
        life.off = True
        try:
            life.connection.close()
        except OSError:
            pass


def install():
    thread, barrier = threading.Thread, threading.Barrier
    thread.start, thread._bootstrap_inner, thread.join, threading._shutdown = start, begin, join, shutdown
    barrier.wait, barrier._break, barrier.reset = wait, breaks, reset
    threading.Lock, threading.RLock = Lock, RLock
    os.register_at_fork(before=before_fork, after_in_parent=behind_fork, after_in_child=in_child)

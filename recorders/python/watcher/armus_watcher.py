"""The watcher of a Python program: a thread that looks at the frames of all others every 50 ms, and announces who stood in the same wait at two looks. Nothing of the
program is replaced. What a thread waits for is what its frames say: where it stands in threading, queue and concurrent.futures, and in which line of the program.
That it has not run between two looks is what the kernel says."""
import ast
import functools
import inspect
import opcode
import os
import platform
import socket
import stat
import struct
import sys
import time
import _thread
import weakref

PERIOD, LONGEST = 0.05, 1.0
FUTEX = {'x86_64': 202, 'aarch64': 98, 'riscv64': 98, 'ppc64le': 221, 's390x': 238}.get(platform.machine())
EPOLL = {'x86_64': 232, 'aarch64': 22, 'riscv64': 22}.get(platform.machine())
WAIT4 = {'x86_64': 61, 'aarch64': 260, 'riscv64': 260, 'ppc64le': 114, 's390x': 114}.get(platform.machine())
STANDARD = os.path.dirname(os.__file__) + os.sep
BEGUN = time.time()


# ---- what the kernel says of a thread
def text_of(path):
    try:
        with open(path, 'rb', buffering=0) as file:
            return file.read(4096)
    except OSError:
        return b''


def switches(native):
    """How often a thread has run; the same number at two looks means that it has slept between."""
    text = text_of(f'/proc/self/task/{native}/status')
    return text[text.find(b'voluntary_ctxt_switches'):] if text else None


IN_SELECT, IN_CHILD = 'select', 'child'


def sleeps_at(native):
    """The address at which a thread sleeps without a limit, IN_SELECT where it waits so for files, IN_CHILD where it does for the end of a process, or nothing."""
    words = text_of(f'/proc/self/task/{native}/syscall').split()
    if len(words) < 6:
        return None
    number, limit = words[0], int(words[4], 16)
    if number == str(EPOLL).encode() and limit & 0xffffffff == 0xffffffff:
        return IN_SELECT
    if number == str(WAIT4).encode() and not int(words[3], 16) & os.WNOHANG:
        return IN_CHILD
    return int(words[1], 16) if number == str(FUTEX).encode() and limit == 0 else None


class Memory:
    """The process's own memory, read without touching it."""

    def __init__(self):
        self.file = moved_file(os.open('/proc/self/mem', os.O_RDONLY | os.O_CLOEXEC))
        self.is_same = self.identity()

    def identity(self):
        found = os.fstat(self.file)
        return found.st_dev, found.st_ino

    def close(self):
        """Not a file of the program's own that has its number now."""
        if self.identity() == self.is_same:
            os.close(self.file)

    def words(self, address, count):
        try:
            got = os.pread(self.file, 8 * count, address)
        except (OSError, OverflowError):
            got = b''
        return struct.unpack(f'{len(got) // 8}Q', got[:len(got) // 8 * 8])

    def word(self, address):
        found = self.words(address, 1)
        return found[0] if found else 0


# ---- names and values of a frame, without making its dictionary of locals, which would keep values alive
def local_values(frame, memory):
    """Pairs of a name and a value."""
    code = frame.f_code
    if not code.co_flags & inspect.CO_OPTIMIZED or sys.version_info >= (3, 13):
        return list(frame.f_locals.items())
    cells = code.co_cellvars if sys.version_info < (3, 11) else tuple(n for n in code.co_cellvars if n not in code.co_varnames)
    names = code.co_varnames + cells + code.co_freevars
    return [(name, value.cell_contents if type(value) is CELL and not is_empty(value) else value) for name, value in zip(names, frame_values(frame, code, len(names)))
            if value is not None]


def frame_values(frame, code, count):
    """What the locals of a frame of Python 3.8 to 3.12 have. Without the library of the C recorder, which takes them all at one moment, they are not looked at."""
    import ctypes
    try:
        take = ctypes.PyDLL(None).armus_frame_values
    except AttributeError:
        return []
    take.restype, take.argtypes = ctypes.c_long, (ctypes.py_object, ctypes.c_long, ctypes.c_long, ctypes.py_object, ctypes.c_long, ctypes.c_long, ctypes.c_void_p)
    found = (ctypes.c_size_t * (count + 1))()
    if sys.version_info < (3, 11):
        taken = take(frame, 0, 32, code, type(frame).__basicsize__ - 8, count, found)      # the last word of the frame itself is the first local
    else:
        taken = take(frame, 24, 32 if sys.version_info < (3, 12) else 0, code, 72, count, found)
    values = [ctypes.cast(p, ctypes.py_object).value if p else None for p in found[:taken]]
    for p in found[:taken]:
        if p:
            ctypes.pythonapi.Py_DecRef(ctypes.c_void_p(p))
    return values


CELL = type((lambda x: lambda: x)(0).__closure__[0])


def is_empty(cell):
    try:
        cell.cell_contents
        return False
    except ValueError:
        return True


def attribute(value, name):
    """An attribute as it is stored, without running code of the program."""
    try:
        return object.__getattribute__(value, '__dict__')[name]
    except (AttributeError, TypeError, KeyError):
        try:
            found = inspect.getattr_static(value, name)
            if inspect.ismemberdescriptor(found):
                return found.__get__(value)
            return found
        except Exception:
            return None


def evaluated(node, frame, locals_):
    """The values that an expression of names, attributes and plain indices may have."""
    if isinstance(node, ast.Name):
        near = [v for n, v in locals_ if n == node.id]
        of_function = frame.f_code.co_varnames + frame.f_code.co_cellvars + frame.f_code.co_freevars
        return near if near or node.id in of_function or node.id not in frame.f_globals else [frame.f_globals[node.id]]
    if isinstance(node, ast.Attribute):
        return [v for v in (attribute(o, node.attr) for o in evaluated(node.value, frame, locals_)) if v is not None]
    if isinstance(node, ast.Subscript):
        found = []
        index = node.slice.value if isinstance(node.slice, getattr(ast, 'Index', ())) else node.slice
        keys = [index.value] if isinstance(index, ast.Constant) else evaluated(index, frame, locals_)
        for o in evaluated(node.value, frame, locals_):
            for k in keys:
                if type(o) in (list, tuple, dict) and type(k) in (int, str):
                    try:
                        found.append(o[k])
                    except (LookupError, TypeError):
                        pass
        return found
    return []


# ---- what the text of the program says about locks
class Text:
    """Of a file: the calls and with-statements in each line, and the regions in which a lock is held."""
    known = {}

    def __init__(self, file):
        self.at, self.regions, self.statements = {}, [], {}
        try:
            tree = ast.parse(self.read(file))
        except (OSError, SyntaxError, ValueError, RecursionError, MemoryError):
            return
        for node in ast.walk(tree):
            if isinstance(node, (ast.With, ast.AsyncWith)):
                self.statements[begin_of(node)] = [item.context_expr for item in node.items]
                for item, later in zip(node.items, node.items[1:] + [None]):
                    self.entered(item, later, node.body)
            elif isinstance(node, ast.Call) and isinstance(node.func, ast.Attribute) and node.func.attr in ('acquire', 'get', 'put', 'wait'):
                self.note(node.lineno, node.end_lineno, node.func.attr, node.func.value)
            for _, body in ast.iter_fields(node):
                if isinstance(body, list):
                    for one, two in zip(body, body[1:]):
                        self.tried(one, two)

    @staticmethod
    def read(file):
        """The text that the program was made of: a plain file that is older than the program's beginning. What else has the name may be the program's input."""
        found = os.stat(file)
        if not stat.S_ISREG(found.st_mode) or found.st_mtime > BEGUN:
            return b''
        with open(file, 'rb') as opened:
            return opened.read()

    def note(self, first, last, verb, expression):
        for line in range(first, min(max(last, first), first + 20) + 1):
            self.at.setdefault(line, []).append((verb, expression))

    def entered(self, item, later, body):
        """What a with-statement enters: it is held in the statement's lines, and while a later one of the same statement is entered, which only a column can tell."""
        lock = item.context_expr
        self.note(lock.lineno, getattr(lock, 'end_lineno', 0), 'with', lock)
        if not gives_back(body, lock):
            self.regions.append((span(body), lock, False))
            if later is not None:
                self.regions.append(((begin_of(later.context_expr), begin_of(body[0])), lock, True))
        if isinstance(lock, ast.Call) and isinstance(item.optional_vars, (ast.Name, ast.Attribute)) and not gives_back(body):
            self.regions.append((span(body), item.optional_vars, False))          # perhaps an ExitStack

    def entered_before(self, frame):
        """What the with-statement at which the frame stands has entered before it enters the next. Python 3.11 and 3.12 have the statement's place there, 3.13 that of the next."""
        code, at, enters = frame.f_code, frame.f_lasti // 2, opcode.opmap.get('BEFORE_WITH')
        if enters is None or at < 0 or code.co_code[frame.f_lasti] != enters:
            return ()
        places = [place[:1] + place[2:3] for place in code.co_positions()]
        locks = self.statements.get(places[at], ())
        earlier = sum(code.co_code[2 * i] == enters and places[i] == places[at] for i in range(at))
        return locks[:earlier % len(locks)] if locks else ()          # a statement in a finally stands there twice

    def tried(self, one, two):
        """lock.acquire(), and then try .. finally lock.release()"""
        call = one.value if isinstance(one, ast.Expr) else None
        call = call.value if isinstance(call, ast.Await) else call
        if isinstance(call, ast.Call) and isinstance(call.func, ast.Attribute) and call.func.attr == 'acquire' and not call.args and isinstance(two, ast.Try) \
                and not gives_back(two.body, call.func.value):
            for last in two.finalbody:
                end = last.value if isinstance(last, ast.Expr) else None
                if isinstance(end, ast.Call) and isinstance(end.func, ast.Attribute) and end.func.attr == 'release' and ast.dump(end.func.value) == ast.dump(call.func.value):
                    self.regions.append((span(two.body), call.func.value, False))

    @classmethod
    def of(cls, frame):
        file = frame.f_code.co_filename
        if file not in cls.known:
            cls.known[file] = cls(file)
        return cls.known[file]


def gives_back(body, lock=None):
    """Whether the lock is given back in the midst of these lines: then who stands there may not have it. With no lock, whether any is, or is put into a stack that has not
    entered it."""
    text = ast.dump(lock) if lock is not None else None
    return any(isinstance(node, ast.Call) and isinstance(node.func, ast.Attribute) and (node.func.attr == 'release' and text in (None, ast.dump(node.func.value))
               or node.func.attr == 'push' and text is None) for one in body for node in ast.walk(one))


def begin_of(node):
    return node.lineno, node.col_offset


def span(body):
    return begin_of(body[0]), (body[-1].end_lineno, body[-1].end_col_offset)


def is_kept_by(stack, lock):
    """Whether this is an ExitStack that has entered the lock, and will leave it."""
    contextlib = sys.modules.get('contextlib')
    if contextlib is None or not isinstance(stack, contextlib._BaseExitStack):
        return False
    return any(getattr(leave, '__self__', None) is lock for _, leave in list(attribute(stack, '_exit_callbacks') or ()))


def stands_at(frame):
    """Line and column of the instruction, the column as far as it is known."""
    if hasattr(frame.f_code, 'co_positions') and frame.f_lasti >= 0:
        for i, (line, _, column, _) in enumerate(frame.f_code.co_positions()):
            if i == frame.f_lasti // 2 and line is not None and column is not None:
                return line, column
    return frame.f_lineno, None


def is_inside(frame, region):
    (first, first_column), (last, last_column) = region
    line, column = stands_at(frame)
    if column is None:
        return first <= line <= last
    return (first, first_column) <= (line, column) < (last, last_column)


def frames_of(frame):
    while frame is not None:
        yield frame
        frame = frame.f_back


def frames_of_coroutine(coroutine):
    """The frames of what a task runs, the innermost first."""
    found = []
    while coroutine is not None:
        frame = getattr(coroutine, 'cr_frame', None) or getattr(coroutine, 'gi_frame', None) or getattr(coroutine, 'ag_frame', None)
        if frame is not None:
            found.append(frame)
        coroutine = getattr(coroutine, 'cr_await', None) or getattr(coroutine, 'gi_yieldfrom', None) or getattr(coroutine, 'ag_await', None)
    return reversed(found)


# ---- lines
class Lines:
    def __init__(self, connection, process):
        self.connection, self.process, self.lines = connection, process, []
        self.is_same = self.identity()

    def identity(self):
        found = os.fstat(self.connection.fileno())
        return found.st_dev, found.st_ino, stat.S_ISSOCK(found.st_mode)

    def say(self, line):
        self.lines.append(line)

    def close(self):
        if self.identity() != self.is_same:
            self.connection.detach()
        self.connection.close()

    def hand_over(self):
        """All lines of a look at once. What cannot be written ends the recorder."""
        data, self.lines = ''.join(x + '\n' for x in self.lines).encode('latin-1', 'replace'), []
        while data:
            if self.identity() != self.is_same:
                self.connection.detach()
                raise OSError('another file has the place of the socket')
            part = data[:60000] if len(data) <= 60000 else data[:data.rfind(b'\n', 0, 60000) + 1]
            if self.connection.send(part, socket.MSG_DONTWAIT | socket.MSG_NOSIGNAL) != len(part):
                raise OSError('a line was cut')
            data = data[len(part):]


def named(text, longest=40):
    """What the monitor takes for a name, and not for one of a wildcard, which begins with '?'."""
    text = ''.join(c if '!' <= c <= '~' and c != '/' else '_' for c in text)[:longest] or '_'
    return '_' + text[1:] if text[0] == '?' else text


ALL = 'all'
KEPT = 4096            # so many objects and names of what was waited for are kept


class Wait:
    """What a thread waits for: an object of a kind, and keepers: each is None (any thread of this process), ALL (of all processes) or a list of threads of which one has
    to act."""
    __slots__ = ('kind', 'object', 'keepers', 'place', 'name', 'ends', 'asleep')

    def __init__(self, kind, object_, keepers, place, name=None, ends=False):
        self.kind, self.object, self.keepers, self.place, self.name, self.ends = kind, object_, keepers, place, name, ends
        self.asleep = None              # of a thread that waits for any of all processes: its number, and what the kernel says of how often it has run

    def turn(self):
        """Who waits for an end is announced first, then who waits for anybody, and then who waits for one that has to do something: the last of them begins the message."""
        return 0 if self.ends else 1 if None in self.keepers or ALL in self.keepers else 2

    def key(self):
        return self.kind, id(self.object), tuple(k if k in (None, ALL) else tuple(k) for k in self.keepers)


class Group:
    def __init__(self, name, turn):
        self.name, self.turn, self.ends, self.waiters = name, turn, [], set()


class Announcer:
    """Who is there, who waits for what, in the order in which the monitor wants it: who is new, who went on, who ended, who waits."""

    def __init__(self, lines):
        self.lines, self.names, self.waits, self.groups, self.numbers, self.turns, self.used = lines, {}, {}, {}, {}, {}, set()
        self.any_is_said = False

    def task(self, key):
        return f'{self.lines.process}/{self.names[key]}'

    def number(self, kind, object_):
        """The number of an object; an address that comes again is another object."""
        known = self.numbers.get((kind, id(object_)))
        if known is None or known[0]() is not object_:
            try:
                reference = weakref.ref(object_)
            except TypeError:
                reference = lambda held=object_: held
            count = self.numbers[kind] = self.numbers.get(kind, 0) + 1
            known = self.numbers[kind, id(object_)] = reference, count
        return known[1]

    def new(self, key, name, place):
        base = name = named(name)
        k = 1
        while name in self.used:
            k += 1
            name = f'{base}_{k}'
        self.used.add(name)
        self.names[key] = name
        self.lines.say(f'{self.task(key)} at @{place}')

    def retire(self, gkey):
        group = self.groups.pop(gkey)
        for line in group.ends:
            self.lines.say(line)
        for key in group.waiters:
            self.lines.say(f'{self.task(key)} go')
            del self.waits[key]
        self.turns[group.name] = group.turn + 1
        if len(self.turns) > KEPT:                              # a number does not come again, and so no name of an object
            kept = {g.name for g in self.groups.values()}
            self.turns = {name: turn for name, turn in self.turns.items() if name in kept}
            self.numbers = {key: value for key, value in self.numbers.items() if not isinstance(key, tuple) or value[0]() is not None}

    def announce(self, present, standing):
        """present: the tasks that are there, each with a name and a place. standing: those that stood in the same wait at two looks."""
        self.present, self.standing = present, standing
        new = [key for key in present if key not in self.names]
        for key in new:
            self.new(key, *present[key])
        if new and self.any_is_said:
            self.say_any()
        for key, gkey in list(self.waits.items()):
            if key in self.waits and (key not in standing or standing[key].key() != gkey):
                self.retire(gkey)
        for key in [k for k in self.names if k not in present]:
            self.lines.say(f'{self.task(key)} end')
            self.used.discard(self.names.pop(key))
        waiting = [k for k in standing if k in self.names and k not in self.waits]
        for key in sorted(waiting, key=lambda k: standing[k].turn()):
            self.wait(key, standing[key])

    def say_any(self):
        """Where nobody knows who may act it is any thread of this process: a wildcard that is a member of all such phasers."""
        line = f'{self.lines.process}/?any-thread of {" ".join(self.task(k) for k in self.names)}'
        self.lines.say(line if len(line) < 511 and len(self.names) > 1 else f'{self.lines.process}/?any-thread any')
        self.any_is_said = True

    def keep(self, group, number, keeper):
        """One who has to act: a thread, one of several, any of this process, or of all."""
        phaser = f'{self.lines.process}/{group.name}'
        players = [self.task(k) for k in keeper if k in self.names] if keeper not in (None, ALL) else []
        if keeper is None or (keeper is not ALL and not players):
            wildcard = f'{self.lines.process}/?any-thread'
            if not self.any_is_said:
                self.say_any()
            group.ends.append(f'{wildcard} leave {phaser}')
        else:
            wildcard = f'{self.lines.process}/?{group.name}' + (f'#{number}' if number else '')
            self.show(() if keeper is ALL else keeper)
            line = f'{wildcard} of {" ".join(players)}'
            self.lines.say(f'{wildcard} any' if keeper is ALL or len(line) > 511 else line)
            group.ends.append(f'{wildcard} end')
        self.lines.say(f'{wildcard} join {phaser} {group.turn}')

    def show(self, keys):
        """Where those are who run, and for whom somebody waits."""
        for key in keys:
            if key in self.present and key not in self.standing and key not in self.waits:
                self.lines.say(f'{self.task(key)} at @{self.present[key][1]}')

    def wait(self, key, wait):
        gkey = wait.key()
        group = self.groups.get(gkey)
        if group is None:
            name = wait.name or f'{wait.kind}-{self.number(wait.kind, wait.object)}'
            base, k = name, 1
            while any(g.name == name for g in self.groups.values()):   # the same object, kept by another thread
                k += 1
                name = f'{base}.{k}'
            group = self.groups[gkey] = Group(name, self.turns.get(name, 0))
            for i, keeper in enumerate(wait.keepers):
                self.keep(group, i, keeper)
        group.waiters.add(key)
        self.waits[key] = gkey
        if wait.asleep is not None:
            native, text = wait.asleep
            self.lines.say(f'# asleep {self.task(key)} {native} {" ".join(word.decode() for word in text.split() if word.isdigit())}')
        self.lines.say(f'{self.task(key)} wait {self.lines.process}/{group.name} {group.turn + 1} @{wait.place[:200]}')


# ---- a look
class Watcher:
    def __init__(self, lines):
        self.announcer, self.memory, self.own = Announcer(lines), Memory(), _thread.get_ident()
        self.native_offset = self.found_offset()
        self.slept, self.beginning, self.earlier, self.began = {}, {}, {}, {}
        self.task_keys = weakref.WeakKeyDictionary()
        self.main = None

    def found_offset(self):
        """Where the library of threads keeps the kernel's number of a thread, behind the address by which Python knows it."""
        own = _thread.get_native_id()
        for offset in (720, 208):
            if self.memory.word(self.own + offset) & 0xffffffff == own:
                return offset
        return None

    def native(self, ident):
        """The kernel's number of a thread. Behind a fork threading may still have that of the parent."""
        if self.native_offset is not None:
            return self.memory.word(ident + self.native_offset) & 0xffffffff or None
        threading = sys.modules.get('threading')
        return getattr(getattr(threading, '_active', {}).get(ident), 'native_id', None)

    @staticmethod
    def thread(ident):
        return getattr(sys.modules.get('threading'), '_active', {}).get(ident)

    def know(self, idents):
        """How many threads had this number one behind the other: a thread that begins may have that of one which has just ended."""
        for ident in idents:
            thread, (known, count) = self.thread(ident), self.began.get(ident, (None, 0))
            if thread is not None and (known is None or known() is not thread):
                self.began[ident] = weakref.ref(thread), count + (known is not None)
        for ident in [i for i in self.began if i not in idents]:
            del self.began[ident]

    def key(self, ident):
        """What the announcer knows a thread by. Tasks and others have a key of their own."""
        return ('thread', ident, self.began.get(ident, (None, 0))[1]) if isinstance(ident, int) else ident

    def name(self, ident, frame):
        threading, thread = sys.modules.get('threading'), self.thread(ident) or self.thread_of(frame)
        if thread is not None:
            return 'main' if thread is threading._main_thread else thread._name
        return f'thread-{len(self.announcer.names)}'

    @classmethod
    def thread_of(cls, frame):
        """The thread that has this frame, by its first one: where threading does not know it yet."""
        while frame.f_back is not None:
            frame = frame.f_back
        code, threading = frame.f_code, sys.modules.get('threading')
        is_first = threading is not None and code.co_name == '_bootstrap' and code.co_filename == threading.__file__
        return dict(cls.library_values(frame)).get('self') if is_first else None

    @classmethod
    def place(cls, frame):
        return cls.place_among(list(frames_of(frame)))

    @staticmethod
    def place_among(frames):
        """The innermost line outside of the standard library; of a thread that is within it altogether, the innermost line."""
        for f in frames:
            file = f.f_code.co_filename
            if not (file.startswith(STANDARD) and 'site-packages' not in file) and not file.startswith('<frozen'):
                return f'{os.path.basename(file)}:{f.f_lineno}'
        return f'{os.path.basename(frames[0].f_code.co_filename)}:{frames[0].f_lineno}'

    def slept_since(self, key, native, mark):
        """Whether a thread has not run since the last look, and where it sleeps."""
        now = mark, switches(native)
        before, self.slept[key] = self.slept.get(key), now
        if before != now or now[1] is None:
            return None
        return sleeps_at(native)

    def look(self):
        frames = {ident: frame for ident, frame in reversed(list(sys._current_frames().items())) if ident != self.own}
        natives = {ident: self.native(ident) for ident in frames}
        present, asleep = {}, {}
        self.earlier, self.beginning = self.beginning, {}
        self.know(frames)
        for ident, frame in frames.items():
            present[ident] = self.name(ident, frame), self.place(frame)
            if natives[ident] is not None:
                at = self.slept_since(ident, natives[ident], (id(frame), frame.f_lasti))
                if at is not None:
                    asleep[ident] = at
        standing = {}
        if asleep:
            for ident in asleep:
                if asleep[ident] is IN_SELECT:
                    self.add_loop(ident, natives[ident], frames[ident], present, standing)
                    continue
                wait = self.wait_of(ident, frames[ident], asleep, frames)
                if wait is not None and sleeps_at(natives[ident]) == asleep[ident] and self.slept[ident][1] == switches(natives[ident]):
                    standing[ident] = wait               # it slept all the while, so what was seen of it is of one moment
                    if ALL in wait.keepers:
                        wait.asleep = natives[ident], self.slept[ident][1]
        self.add_others(present, standing, {n for n in natives.values() if n})
        for ident, frame in sys._current_frames().items():       # who began meanwhile
            if ident not in present and ident != self.own:
                present[ident] = self.name(ident, frame), self.place(frame)
        self.end_main(present, standing, frames)
        if standing and self.has_handlers():
            present['signals'] = 'signal-handlers', 'signal.py'
        for wait in standing.values():
            wait.keepers = [k if k in (None, ALL) else [self.key(ident) for ident in k] for k in wait.keepers]
        self.announcer.announce({self.key(k): value for k, value in present.items()}, {self.key(k): wait for k, wait in standing.items()})
        self.announcer.lines.hand_over()
        for key in [k for k in self.slept if k not in present]:
            del self.slept[key]

    def add_others(self, present, standing, known):
        """Threads that are not of Python: they may call it. Those that sleep without a limit wait for anybody."""
        try:
            natives = [int(n) for n in os.listdir('/proc/self/task')]
        except OSError:
            return
        own = _thread.get_native_id()
        for native in natives:
            if native not in known and native != own:
                key = 'native', native
                at = self.slept_since(key, native, None)
                if text_of(f'/proc/self/task/{native}/stat').rpartition(b') ')[2][:1] in (b'Z', b'X', b''):
                    continue
                present[key] = f'native-{native}', 'native'
                if isinstance(at, int):
                    standing[key] = Wait('native', None, [None], 'native', f'native-{native}')

    def end_main(self, present, standing, frames):
        """Behind its last line the main thread waits for the others; it does nothing more. Where only daemons are left the program is over."""
        threading = sys.modules.get('threading')
        if threading is None:
            return
        main = threading._main_thread.ident
        frame = frames.get(main)
        if frame is None:
            present.setdefault(main, ('main', 'exit'))
        elif frame.f_code.co_name == '_shutdown' and frame.f_code.co_filename == threading.__file__:
            standing.pop(main, None)
            if any(t.is_alive() and not t.daemon for t in list(threading._active.values()) if t.ident != main):
                present.pop(main, None)

    @staticmethod
    def has_handlers():
        signal = sys.modules.get('signal')
        if signal is None:
            return False
        runner = getattr(sys.modules.get('asyncio.runners'), 'Runner', None)
        return any(callable(h) and h is not signal.default_int_handler and not (isinstance(h, functools.partial) and isinstance(getattr(h.func, '__self__', None), runner or ()))
                   for h in map(signal.getsignal, signal.valid_signals()) if not isinstance(h, int))

    # ---- what a frame waits for
    def wait_of(self, ident, frame, asleep, frames):
        threading, code = sys.modules.get('threading'), frame.f_code
        place = self.place(frame)
        if asleep[ident] is IN_CHILD:
            return self.of_child(frame, place, ident)
        if threading is not None and code.co_filename == threading.__file__:
            return self.of_threading(frame, place, asleep[ident], frames, ident)
        if code.co_name == '_worker' and code.co_filename.endswith(os.path.join('concurrent', 'futures', 'thread.py')):
            return Wait('idle', frame, [None], place, f'work-of-{self.announcer.names.get(self.key(ident), "pool")}')
        if code.co_filename.endswith(os.path.join('multiprocessing', 'synchronize.py')):
            return self.of_processes(frame, place, asleep[ident], ident)
        if code.co_name == 'enter_context' and code.co_filename == getattr(sys.modules.get('contextlib'), '__file__', None):
            return self.of_lock(self.lock_at(asleep[ident], [dict(self.library_values(frame)).get('cm')]), place, frames, ident)
        return self.of_line(frame, place, asleep[ident], frames, ident)

    def of_threading(self, frame, place, address, frames, ident):
        threading, name = sys.modules['threading'], frame.f_code.co_name
        values = dict(self.library_values(frame))
        this = values.get('self')
        if name == 'wait' and isinstance(this, threading.Condition):
            return self.of_condition(frame, this, values, place, frames)
        if name in ('_wait_for_tstate_lock', 'join') and isinstance(this, threading.Thread):
            if values.get('timeout') not in (None, -1) or not this.is_alive():
                return None
            return Wait('end-of', this, [[this.ident]], place, f'end-of-{self.announcer.names.get(self.key(this.ident), named(this._name))}', ends=True)
        if name in ('_acquire_restore', '__enter__', 'acquire'):
            return self.of_lock(self.lock_at(address, [getattr(this, '_lock', None), getattr(this, '_block', None)]), place, frames, ident)
        return None

    @staticmethod
    def library_values(frame):
        return frame.f_locals.items()                    # of the library's own frames, which are short-lived

    def of_condition(self, frame, condition, values, place, frames):
        if values.get('timeout') is not None or values.get('waiter') not in condition._waiters:
            return None
        outer = frame.f_back
        if outer is not None and outer.f_code.co_name == 'wait_for':
            outer = outer.f_back
        if outer is None:
            return None
        this, code = dict(self.library_values(outer)).get('self') if outer.f_code.co_filename.startswith(STANDARD) else None, outer.f_code
        threading, kind = sys.modules['threading'], type(this).__name__
        if isinstance(this, threading.Barrier) and code.co_name in ('_wait', '_enter'):
            return Wait(kind, this, [None], place) if this._state == 0 or code.co_name == '_enter' else None
        if isinstance(this, threading.Event):
            return None if this._flag else self.of_event(outer, this, place, frames)
        if isinstance(this, threading.Semaphore):
            return Wait(kind, this, [None], place) if this._value == 0 else None
        if code.co_name in ('get', 'put', 'join') and hasattr(this, 'unfinished_tasks'):
            return Wait(kind, this, [None], place, f'{named(kind)}-{self.announcer.number(kind, this)}.{code.co_name}')
        if code.co_name in ('result', 'exception') and hasattr(this, '_done_callbacks'):
            return self.of_future(this, place, frames)
        return Wait('Condition', condition, [None], place)

    def of_event(self, frame, event, place, frames):
        """The start of a thread is an event too: that thread is on its way."""
        outer = frame.f_back
        if outer is not None and outer.f_code.co_name == 'start' and outer.f_code.co_filename == sys.modules['threading'].__file__:
            return None
        return Wait('Event', event, [None], place)

    def of_future(self, future, place, frames):
        """Who runs it, and else any."""
        for ident, frame in frames.items():
            for f in frames_of(frame):
                if f.f_code.co_name == 'run' and f.f_code.co_filename.endswith(os.path.join('futures', 'thread.py')):
                    item = dict(self.library_values(f)).get('self')
                    if getattr(item, 'future', None) is future:
                        return Wait('Future', future, [[ident]], place)
        return Wait('Future-not-begun' if getattr(future, '_state', None) == 'PENDING' else 'Future', future, [None], place)

    def is_early(self, ident, frame):
        """Where several processes share something, time enough has to pass until all of them are there."""
        since = self.beginning[ident, id(frame)] = self.earlier.get((ident, id(frame)), time.monotonic())
        return time.monotonic() - since < 0.5

    def of_child(self, frame, place, ident):
        """The end of a process that multiprocessing has started. Any thread may end it, in that process and in others."""
        if frame.f_code.co_name != 'poll' or not frame.f_code.co_filename.endswith(os.path.join('multiprocessing', 'popen_fork.py')) or self.is_early(ident, frame):
            return None
        for f in frames_of(frame):
            if f.f_code.co_name == 'join':
                process = dict(self.library_values(f)).get('self')
                return Wait('Process', process, [ALL], place, f'end-of-{named(attribute(process, "_name"))}', ends=True)
        return None

    def of_shared(self, lock, place, address, frame, ident):
        """A lock or semaphore that processes share, where the thread sleeps at its address. Any thread of them may release it."""
        inner = attribute(lock, '_semlock')
        if type(inner).__module__ != '_multiprocessing' or inner.handle != address or self.is_early(ident, frame):
            return None
        return Wait(type(lock).__name__, lock, [ALL], place)

    def of_processes(self, frame, place, address, ident):
        """Objects that processes share."""
        values = dict(self.library_values(frame))
        if frame.f_code.co_name == '__enter__':
            return self.of_shared(values.get('self'), place, address, frame, ident)
        if frame.f_code.co_name != 'wait' or values.get('timeout') is not None or self.is_early(ident, frame):
            return None
        outer = frame.f_back
        if outer is not None and outer.f_code.co_name == 'wait_for':
            outer = outer.f_back
        this = dict(self.library_values(outer)).get('self') if outer is not None and outer.f_code.co_filename.startswith(STANDARD) else values.get('self')
        if type(this).__name__ == 'Barrier' and getattr(this, '_state', 0) != 0:
            return None
        return Wait(type(this).__name__, this, [ALL], place)

    # ---- asyncio: a loop that waits for nothing but its own tasks, other threads and signals, and each of its tasks
    def add_loop(self, ident, native, frame, present, standing):
        loop = self.idle_loop(frame)
        if loop is None:
            return
        try:
            tasks = {self.task_key(task): task for task in sys.modules['asyncio.tasks'].all_tasks(loop)}
            frames = {key: list(frames_of_coroutine(task.get_coro())) for key, task in tasks.items()}
            waits = {key: self.wait_of_task(task, key, tasks, frames) for key, task in tasks.items()}
            names = {key: (task.get_name(), self.place_of_task(frames[key])) for key, task in tasks.items()}
        except (AttributeError, RuntimeError):                   # it goes on meanwhile
            return
        if self.slept[ident][1] == switches(native):
            present.update(names)
            standing.update((key, wait) for key, wait in waits.items() if wait is not None)
            standing[ident] = Wait('loop', loop, [None], self.place(frame), ends=True)

    @staticmethod
    def idle_loop(frame):
        """The loop that this frame runs. Nothing is ready in it, no time will come, and it waits for no file but its own by which other threads wake it."""
        base = sys.modules.get('asyncio.base_events')
        for f in frames_of(frame):
            if base is not None and f.f_code.co_name == '_run_once' and f.f_code.co_filename == base.__file__:
                loop = f.f_locals.get('self')
                try:
                    files = list(loop._selector.get_map().values())
                    if loop._ready or any(not handle._cancelled for handle in loop._scheduled) or any(file.fileobj is not loop._ssock and file.fd != loop._ssock.fileno() for file in files):
                        return None
                    return loop
                except (AttributeError, RuntimeError):           # a loop of another sort, or one that goes on
                    return None
        return None

    def task_key(self, task):
        return self.task_keys.setdefault(task, ('task', len(self.task_keys), id(task)))

    def place_of_task(self, frames):
        return self.place_among(frames) if frames else 'asyncio'

    def wait_of_task(self, task, key, tasks, frames):
        place, waiter, keys = self.place_of_task(frames[key]), task._fut_waiter, {id(t): k for k, t in tasks.items()}
        if waiter is None or waiter.done():
            return None
        if id(waiter) in keys:
            return Wait('end-of', waiter, [[keys[id(waiter)]]], place, f'end-of-{named(waiter.get_name())}', ends=True)
        kind, children = self.children_of(waiter, frames[key])
        if children:
            known = all(id(child) in keys for child in children)
            return Wait(kind, waiter, [[keys[id(child)] for child in children] if known else None], place, ends=True)
        this = None
        for frame in frames[key]:
            if os.path.basename(os.path.dirname(frame.f_code.co_filename)) != 'asyncio' or os.path.basename(frame.f_code.co_filename) not in ('locks.py', 'queues.py', 'mixins.py'):
                break
            this = frame.f_locals.get('self', this)
        if this is None:
            return Wait('Future', waiter, [None], place)
        kind = type(this).__name__
        if isinstance(this, sys.modules['asyncio.locks'].Lock):
            holders = [k for k in tasks if self.holds_among(frames[k], this, k == key)]
            return Wait(kind, this, [holders if len(holders) == 1 and this.locked() else None], place)
        return Wait(kind, this, [None], place)

    @staticmethod
    def children_of(waiter, frames):
        """The futures for which gather, asyncio.wait or the end of a TaskGroup waits. Any of them may let it go, by its end or by what it raises."""
        found, kind = getattr(waiter, '_children', ()), 'gather'
        code = frames[0].f_code if frames else None
        if code is not None and os.path.basename(os.path.dirname(code.co_filename)) == 'asyncio':
            values, file = frames[0].f_locals, os.path.basename(code.co_filename)
            if file == 'tasks.py' and code.co_name == '_wait':
                found, kind = values.get('fs', ()), 'wait'
            elif file == 'taskgroups.py' and code.co_name in ('__aexit__', '_aexit'):
                found, kind = getattr(values.get('self'), '_tasks', ()), 'TaskGroup'
        return kind, [child for child in found if not child.done()]

    # ---- locks
    def lock_at(self, address, candidates):
        """The one of them whose lock is at the address where the thread sleeps."""
        for lock in candidates:
            if type(lock).__name__ in ('lock', 'RLock') and self.memory.word(id(lock) + 16) == address:
                return lock
        return None

    def of_line(self, frame, place, address, frames, ident):
        calls = Text.of(frame).at.get(frame.f_lineno, ())
        if not calls:
            return None
        locals_, found = local_values(frame, self.memory), []
        for _, expression in calls:
            found += evaluated(expression, frame, locals_)
        lock = self.lock_at(address, found)
        if lock is not None:
            return self.of_lock(lock, place, frames, ident)
        for value in found:
            shared = self.of_shared(value, place, address, frame, ident)
            if shared is not None:
                return shared
        queues = [q for q in found if type(q).__name__ == 'SimpleQueue' and q.empty()]
        return Wait('SimpleQueue', queues[0], [None], place) if len(queues) == 1 and len(calls) == 1 else None

    def of_lock(self, lock, place, frames, ident):
        if lock is None:
            return None
        if type(lock).__name__ == 'RLock':
            words = repr(lock).partition('owner=')[2].split(' ')
            owner = int(words[0]) if words[0].isdigit() else 0
            return Wait('RLock', lock, [[owner] if owner in frames else None], place) if owner else None
        if not lock.locked():
            return None
        holders = [i for i, f in frames.items() if self.holds(f, lock, i == ident)]
        return Wait('Lock', lock, [holders if len(holders) == 1 else None], place)

    def holds(self, frame, lock, waits):
        return self.holds_among(frames_of(frame), lock, waits)

    def holds_among(self, frames, lock, waits):
        """Whether one with these frames stands inside of a with-statement of this lock, or of an ExitStack that has entered it, or between its acquire and the release of a
        finally. The wait of a condition gives its lock back."""
        frames = list(frames)
        if any(f.f_code.co_name == 'wait' and f.f_code.co_filename.startswith(STANDARD) and attribute(f.f_locals.get('self'), '_lock') is lock for f in frames[:2]):
            return False
        outside = [f for f in frames if not f.f_code.co_filename.startswith(STANDARD) or 'site-packages' in f.f_code.co_filename]
        for n, f in enumerate(outside):
            for expression in Text.of(f).entered_before(f):
                if any(value is lock for value in evaluated(expression, f, local_values(f, self.memory))):
                    return True
            for region, expression, wants_column in Text.of(f).regions:
                if region[0][0] <= f.f_lineno <= region[1][0] and is_inside(f, region) and f.f_code.co_firstlineno <= region[0][0]:
                    is_vague = (wants_column or n == 0 and waits) and stands_at(f)[1] is None
                    if any(value is lock and not is_vague or is_kept_by(value, lock) for value in evaluated(expression, f, local_values(f, self.memory))):
                        return True
        return False


# ---- begin and end
class Life:
    """The watcher's thread, which stops before a fork and goes on behind it. There is one at a time, and none while a thread forks."""
    current = None
    beginning = _thread.allocate_lock()             # who begins one; never waited for
    forking = set()                                 # the threads that are in a fork

    def __init__(self, hook):
        self.hook, self.wake, self.process = hook, _thread.allocate_lock(), os.getpid()
        self.done, self.native, self.ending = _thread.allocate_lock(), None, False
        self.wake.acquire()

    def connect(self):
        path = os.environ['ARMUS_SOCKET'].split('|')[0]
        connection = socket.socket(socket.AF_UNIX)
        try:
            connection.connect(path)
            connection = socket.socket(fileno=moved_file(connection.detach()))
            process = str(os.getpid())
            self.lines = Lines(connection, process)
            self.lines.say(f'# process {process}/')
            return True
        except OSError:
            connection.close()
            return False

    def run(self):
        try:
            self.done.acquire()
            self.native = _thread.get_native_id()
            if not self.ending and self.connect():
                watcher = Watcher(self.lines)
                pause = PERIOD
                while not self.wake.acquire(timeout=pause):
                    begun = time.thread_time()
                    watcher.look()
                    pause = min(LONGEST, max(PERIOD, 25 * (time.thread_time() - begun)))
        except BaseException as e:                        # nothing of the recorder reaches the program
            if os.environ.get('ARMUS_DEBUG'):
                import traceback
                traceback.print_exc()
        finally:
            for close in (lambda: self.lines.close(), lambda: watcher.memory.close()):
                try:
                    close()
                except Exception:                         # there is nothing to close, or it is closed
                    pass
            self.done.release()

    def end(self):
        """Tells the thread to end."""
        self.ending = True
        try:
            self.wake.release()
        except RuntimeError:
            pass

    def stop(self):
        """Ends the thread, and waits until the kernel knows it no more."""
        self.end()
        end = time.monotonic() + 0.5
        while (self.native is None or os.path.exists(f'/proc/self/task/{self.native}')) and time.monotonic() < end:
            time.sleep(0.0005)


def moved_file(number):
    """The file under a number that the program is not likely to meet."""
    import fcntl
    import resource
    limit = resource.getrlimit(resource.RLIMIT_NOFILE)[0]
    high = min(limit if limit > 0 else 65536, 65536)
    try:
        other = fcntl.fcntl(number, fcntl.F_DUPFD_CLOEXEC, high - high // 16)
    except OSError:
        return number
    os.close(number)
    return other


class Started:
    """A thread that Python did not start: it is none of the program's threads, and is not counted as one. It blocks all signals."""
    lives = {}                                      # what the threads run that have not begun yet, by number
    made = None                                     # the function of C that they all run; it stays, since a thread is in it until it is gone

    @classmethod
    def start(cls, life):
        import ctypes
        import signal
        if cls.made is None:
            cls.made = ctypes.CFUNCTYPE(ctypes.c_void_p, ctypes.c_void_p)(lambda number: cls.lives.pop(number).run())
        number = id(life)
        cls.lives[number] = life
        own = signal.pthread_sigmask(signal.SIG_BLOCK, signal.valid_signals())
        try:
            library, thread = ctypes.CDLL(None), ctypes.c_ulong()
            if library.pthread_create(ctypes.byref(thread), None, cls.made, ctypes.c_void_p(number)) == 0:
                library.pthread_detach(thread)
            else:
                life.native = 0                     # there is no thread
                del cls.lives[number]
        finally:
            signal.pthread_sigmask(signal.SIG_SETMASK, own)


def begin(hook):
    """Begins the watcher, unless there is one, or one will begin behind a fork. Who is here while another thread is leaves it to that one, which looks again."""
    while not Life.forking and not is_watched() and Life.beginning.acquire(False):
        try:
            first = Life.current is None
            Life.current = Life(hook)
            Started.start(Life.current)
            if first:
                os.register_at_fork(before=before_fork, after_in_parent=behind_fork)
                import atexit
                atexit.register(lambda: Life.current and Life.current.end())
        finally:
            Life.beginning.release()


def is_watched():
    life = Life.current
    return life is not None and life.process == os.getpid() and not life.ending


def before_fork():
    Life.forking.add(_thread.get_ident())
    if Life.current.process == os.getpid():
        Life.current.stop()


def behind_fork():
    """In the parent, behind the last fork: goes on where there are other threads, and else with the next one."""
    life = Life.current
    Life.forking.discard(_thread.get_ident())
    if not Life.forking:
        if len(sys._current_frames()) > 1 or 'multiprocessing' in sys.modules or 'asyncio' in sys.modules:
            begin(life.hook)
        else:
            life.hook()


def in_child():
    """No other thread is there. This comes before a watcher begins in the child."""
    Life.forking.clear()
    Life.beginning = _thread.allocate_lock()

"""Brings the watcher of armus-run into a Python program. armus-run puts this folder in front of PYTHONPATH, so each Python imports this module when it begins.
The folder leaves the module path at once, another sitecustomize is loaded as it would be without this one, and the watcher itself is loaded when the program
begins its first thread, forks or spawns a process of multiprocessing, or loads asyncio."""
import os
import sys


def _begin():
    import _thread
    folder = os.path.dirname(os.path.abspath(__file__))
    starts = [name for name in ('start_new_thread', 'start_new', 'start_joinable_thread') if hasattr(_thread, name)]
    real = {name: getattr(_thread, name) for name in starts}
    state = {}

    def watch(*_):
        """Loads the watcher, once in each process."""
        if state.get('process') != os.getpid():
            state['process'] = os.getpid()
            restore()
            if not is_main_interpreter():
                return
            try:
                if 'module' not in state:
                    names = {'__name__': 'armus_watcher', '__file__': os.path.join(folder, 'armus_watcher.py')}
                    with open(names['__file__'], encoding='utf-8') as file:
                        exec(compile(file.read(), names['__file__'], 'exec'), names)
                    state['module'] = names
                state['module']['begin'](hook)
            except Exception:                       # nothing of the recorder reaches the program
                pass

    def is_main_interpreter():
        for name in ('_interpreters', '_xxsubinterpreters'):
            try:
                module = __import__(name)
                return module.get_current() == module.get_main()
            except (ImportError, AttributeError):
                pass
        return True

    def hooked(name):
        def start(*words, **more):
            watch()
            return real[name](*words, **more)
        return start

    hooks = {name: hooked(name) for name in starts}

    def replace(before, after):
        for module in filter(None, (_thread, sys.modules.get('threading'))):
            for name in starts:
                for prefix in ('', '_'):
                    if vars(module).get(prefix + name) is before[name]:
                        setattr(module, prefix + name, after[name])

    def restore():
        replace(hooks, real)

    def hook():
        """The next thread that begins brings the watcher again: behind a fork."""
        state.pop('process', None)
        replace(real, hooks)

    class Finder:
        """Finds nothing. It is asked for asyncio's loops, and for what spawns processes, when they are loaded, and then the watcher begins."""
        @staticmethod
        def find_spec(name, path=None, target=None):
            if name in ('asyncio.base_events', 'multiprocessing.popen_spawn_posix'):
                sys.meta_path[:] = [f for f in sys.meta_path if f is not Finder]
                watch()
            return None

    def in_parent():
        if 'multiprocessing' in sys.modules or 'asyncio' in sys.modules:
            watch()

    def in_child():
        if 'module' in state:
            state['module']['in_child']()
        hook()
        if 'multiprocessing' in sys.modules:
            watch()

    sys.meta_path.insert(0, Finder)
    hook()
    if '--multiprocessing-fork' in getattr(sys, 'orig_argv', sys.argv):
        watch()
    else:
        os.register_at_fork(after_in_parent=in_parent, after_in_child=in_child)


def _next():
    """Loads the sitecustomize that would be there without this one."""
    from importlib.machinery import PathFinder
    from importlib.util import module_from_spec
    own = os.path.dirname(os.path.abspath(__file__))
    sys.path[:] = [p for p in sys.path if os.path.abspath(p or '.') != own]
    found = PathFinder.find_spec('sitecustomize', sys.path)
    if found is not None and found.loader is not None:
        module = sys.modules['sitecustomize'] = module_from_spec(found)
        found.loader.exec_module(module)


if os.environ.get('ARMUS_SOCKET'):
    try:
        _begin()
    except Exception:
        pass
_next()

"""Brings the guard of armus-run --guard into a Python program. armus-run puts this folder in front of PYTHONPATH, so each Python imports this module when it begins.
The folder leaves the module path at once, and another sitecustomize is loaded as it would be without this one. A program that imports armus and has none of its own gets
the one of ../members."""
import os
import sys

_FOLDER = os.path.dirname(os.path.abspath(__file__))


class _Finder:
    """Finds the module armus where nobody else does."""
    @staticmethod
    def find_spec(name, path=None, target=None):
        if name != 'armus':
            return None
        from importlib.util import spec_from_file_location
        return spec_from_file_location(name, os.path.join(os.path.dirname(_FOLDER), 'members', 'armus.py'))


def _begin():
    from importlib.util import module_from_spec, spec_from_file_location
    spec = spec_from_file_location('_armus_guard', os.path.join(_FOLDER, '_armus_guard.py'))
    guard = sys.modules['_armus_guard'] = module_from_spec(spec)
    spec.loader.exec_module(guard)
    guard.install()
    sys.meta_path.append(_Finder)


def _next():
    """Loads the sitecustomize that would be there without this one."""
    from importlib.machinery import PathFinder
    from importlib.util import module_from_spec
    sys.path[:] = [p for p in sys.path if os.path.abspath(p or '.') != _FOLDER]
    found = PathFinder.find_spec('sitecustomize', sys.path)
    if found is not None and found.loader is not None:
        module = sys.modules['sitecustomize'] = module_from_spec(found)
        found.loader.exec_module(module)


if os.environ.get('ARMUS_SOCKET') and os.environ.get('ARMUS_GUARD'):
    _kept = sys.dont_write_bytecode
    sys.dont_write_bytecode = True
    try:
        _begin()
    except Exception:                                   # nothing of the recorder reaches the program
        if os.environ.get('ARMUS_DEBUG'):
            import traceback
            traceback.print_exc()
    sys.dont_write_bytecode = _kept
_next()

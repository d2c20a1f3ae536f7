"""What a region leaves: objects that are new at its end and that nothing says to let be."""
import fnmatch
import functools
import gc
import re
import sys
import types
from typing import Any, Callable, List, Set

from .contents import PLAIN, WEAK, class_dict, contents, module_of, shape_of
from .notices import Place
from .regions import Region
from .walk import Walk

# What Python and its library keep from a first use on, whatever the program does.
_KEPT_BY_PYTHON = frozenset(
    {
        "_abc._abc_data",
        "_contextvars.Context",
        "_struct.Struct",
        "_thread.RLock",
        "abc.SignalDict",
        "_thread._local",
        "_thread.lock",
        "asyncio.unix_events.PidfdChildWatcher",
        "asyncio.unix_events.ThreadedChildWatcher",
        "asyncio.unix_events._UnixDefaultEventLoopPolicy",
        "codecs.CodecInfo",
        "decimal.Context",
        "hamt",
        "hamt_array_node",
        "hamt_bitmap_node",
        "hamt_collision_node",
        "logging.LogRecord",
        "logging.Logger",
        "logging.PlaceHolder",
        "mimetypes.MimeTypes",
        "random.Random",
        "re.Pattern",
        "re.RegexFlag",
        "tempfile._RandomNameSequence",
        "threading._DummyThread",
        "types.GenericAlias",
        "types.UnionType",
        "warnings.WarningMessage",
    }
)
_KEPT_BY_PYTHON_BEGINS = ("_frozen_importlib", "importlib.", "typing.", "zipimport.")
_CONTAINERS = frozenset(
    {
        "builtin_function_or_method",
        "dict",
        "frozenset",
        "functools._lru_cache_wrapper",
        "functools._lru_list_elem",
        "list",
        "property",
        "set",
        "tuple",
        "weakref.ReferenceType",
    }
)
_OF_A_CLASS = (types.FunctionType, types.BuiltinFunctionType, property, staticmethod, classmethod, frozenset)
_OF_CLASSES = (types.FunctionType, types.BuiltinFunctionType, type, types.ModuleType)


def left_by(
    region: Region, tracked: Set[int], walk: Walk, patterns: List[str], place: Place, own: Set[int]
) -> List[Any]:
    """The objects that must be dead after the region: what the walk reaches, nearest first, then what else is alive.

    `own` are the addresses of what the recorder made meanwhile. What modules hold that were imported in the region is
    let be; where objects of the program are among it, a warning says so.
    """

    def is_new(obj: Any) -> bool:
        return region.is_new(obj, tracked)

    let_be = own | _held_by_imports(region, is_new, place) | _held_by_python()
    found = []
    for at, obj in enumerate(walk.objects):
        if type(obj) is types.FrameType or id(obj) in let_be:
            continue
        if is_new(obj) and not (_is_ignored(walk, at, patterns) or _is_cached_by_python(walk, at)):
            found.append(obj)
    for obj in gc.get_objects():
        # What no root reaches now is remembered by a weak reference, or not at all.
        if type(obj).__weakrefoffset__ and not walk.has(obj) and id(obj) not in let_be and is_new(obj):
            shape = shape_of(obj)
            if not (shape.left_out or shape.inner or _is_kept_by_python(shape.name) or _is_of_python(obj)):
                if not _matches(shape.name, patterns):
                    found.append(obj)
    return found


def _is_kept_by_python(name: str) -> bool:
    return name in _KEPT_BY_PYTHON or name.startswith(_KEPT_BY_PYTHON_BEGINS)


def _is_of_python(obj: Any) -> bool:
    """Whether it is a function of a module or of a type that is written in C, or a call of Python's own without anything."""
    if type(obj) is functools.partial:
        return not (obj.args or obj.keywords) and _is_standard(
            str(getattr(obj.func, "__module__", "")).partition(".")[0]
        )
    return type(obj) is types.BuiltinFunctionType and isinstance(obj.__self__, (type, types.ModuleType, type(None)))


def _is_cached_by_python(walk: Walk, place: int) -> bool:
    """Whether a module that comes with Python leads to it over nothing but containers and what Python itself keeps."""
    way = walk.way(place)
    root = way[0][0]
    found = re.match(r"root (?:(context)|(?:module|class) (\w+))", root)
    if found is None or not (found.group(1) or _is_standard(found.group(2))):
        return False
    return all(name in _CONTAINERS or name.startswith("class ") or _is_kept_by_python(name) for _, name in way[1:])


def _held_by_python() -> Set[int]:
    """The addresses of what classes are made of, and of what abstract ones and the finders of modules have in caches."""
    found: Set[int] = set()
    for obj in gc.get_objects():
        if isinstance(obj, type):
            found.update(id(held) for held in list(class_dict(obj).values()) if type(held) in _OF_A_CLASS)
        elif type(obj).__name__ in ("_abc_data", "FileFinder"):
            for held in gc.get_referents(obj):
                found.add(id(held))
                for reference in gc.get_referents(held) if type(held) is set else ():
                    found.add(id(reference))
                    found.update(map(id, gc.get_referents(reference)))  # what is called when a class is gone
    return found


def _held_by_imports(region: Region, is_new: Callable[[Any], bool], place: Place) -> Set[int]:
    """The addresses of what is new and hangs from modules that were imported in the region, and of these modules."""
    modules = {name: module for name, module in list(sys.modules.items()) if name not in region.modules}
    work = [module for module in modules.values() if isinstance(module, types.ModuleType)]
    found = set(map(id, work))
    hides = ""
    while work:
        obj = work.pop()
        for label, held in contents(obj, shape_of(obj), True):
            if label is not WEAK and type(held) not in PLAIN and id(held) not in found and is_new(held):
                found.add(id(held))
                work.append(held)
                if _is_of_program(held):
                    hides = hides or shape_of(held).name
    if hides:
        place.warn(
            "what modules hold that were imported in a region is let be, and %s is among it: import %s before the region"
            % (hides, ", ".join(sorted(modules)[:6]))
        )
    return found


def _is_of_program(obj: Any) -> bool:
    """Whether it is an object of a class that doesn't come with Python; classes and functions of a module aren't meant."""
    if isinstance(obj, _OF_CLASSES):
        return False
    module = module_of(type(obj)).partition(".")[0]
    return module not in ("", "builtins") and not _is_standard(module)


def _is_standard(module: str) -> bool:
    """Whether a module comes with Python."""
    names = getattr(sys, "stdlib_module_names", None)  # from Python 3.10 on
    if names is not None:
        return module in names
    file = getattr(sys.modules.get(module), "__file__", None)
    return file is None or (
        file.startswith(sys.base_prefix) and "site-packages" not in file and "dist-packages" not in file
    )


def _is_ignored(walk: Walk, place: int, patterns: List[str]) -> bool:
    if not patterns:
        return False
    if _matches(walk.shapes[place].name, patterns):
        return True
    path = "".join(label for label, _ in walk.way(place))
    return _matches(path, patterns)


def _matches(text: str, patterns: List[str]) -> bool:
    return any(fnmatch.fnmatchcase(text, pattern.replace("[", "[[]")) for pattern in patterns)

"""What a Python object holds: the objects, and how the program calls the place where it holds them.

Nothing here calls a method that a program may have written: contents are read by the methods of the built-in types,
by the descriptors of a class and by gc.get_referents, which finds what has no name too.
"""
import gc
import os
import sys
import types
import weakref
from collections import deque
from typing import Any, Callable, Dict, List, NamedTuple, Optional, Tuple, Union

from gcaudit_trace.traces.names import cut, legal_name

# A label, or the index of an element; and what is held there. The label WEAK says that it is held weakly.
Label = Union[str, int]
Content = Tuple[Label, Any]

WEAK = "(weak)"
CellType = types.CellType
PLAIN = frozenset({int, float, complex, bool, str, bytes, type(None), type(Ellipsis), type(NotImplemented), range})
PROXIES = frozenset({weakref.ProxyType, weakref.CallableProxyType})
OWN_MODULES = ("gcaudit_recorder.", "gcaudit_trace.")
_LEFT_OUT = frozenset(
    {
        types.CodeType,
        types.GetSetDescriptorType,
        types.MemberDescriptorType,
        types.WrapperDescriptorType,
        types.MethodDescriptorType,
        types.ClassMethodDescriptorType,
    }
)
_GENERATORS = (types.GeneratorType, types.CoroutineType, types.AsyncGeneratorType)
_UNCHANGING = frozenset({tuple, frozenset})
VALUES = frozenset(
    {int, float, complex, str, bytes}
)  # plain values that have bytes of their own, each time they are made
_HAS_GC = 1 << 14  # a type's objects have a head for Python's collector
_IS_HEAP_TYPE = 1 << 9
_GC_HEAD = 16
LONG_TEXT = 256  # a text or bytes of more than this count for the object that holds them
_OPTIMIZED = 1  # code whose variables don't stand in a dict


def _descriptor(kind: type, name: str) -> Any:
    """What a built-in type has under a name, by which it is read without a method of the program's."""
    return vars(kind)[name]


class_dict = _descriptor(type, "__dict__").__get__
_module_dict = _descriptor(types.ModuleType, "__dict__").__get__
qualified_name = _descriptor(type, "__qualname__").__get__
_module = _descriptor(type, "__module__").__get__
_order = _descriptor(type, "__mro__").__get__
_bases = _descriptor(type, "__bases__").__get__
_flags = _descriptor(type, "__flags__").__get__


class Shape(NamedTuple):
    """What all objects of one type have in common."""

    name: str
    left_out: bool  # never an object of a trace
    inner: bool  # one only where classes, modules and frames are asked for
    weakly: bool  # objects of the type can be referred to weakly
    grows: bool  # what an object holds can become more
    reader: Callable[[Any, "Shape"], List[Content]]
    own_dict: Any  # the descriptor of __dict__
    members: Tuple[Tuple[str, Any], ...]  # label and descriptor of each name in __slots__
    size: Callable[[Any], int]  # the bytes of an object itself
    head: int  # the bytes before it
    of_program: bool  # a class that a program can make: objects hold it
    namer: Optional[Callable[[Any], str]]  # how an object is named where each has a name of its own


_shapes: Dict[int, Tuple[Any, Shape]] = {}


def shape_of(obj: Any) -> Shape:
    """The shape of the object's type."""
    kind = type(obj)
    known = _shapes.get(id(kind))
    if known is not None and known[0]() is kind:
        return known[1]
    shape = _new_shape(kind)
    _shapes[id(kind)] = (weakref.ref(kind), shape)
    return shape


def forget_shapes() -> None:
    """Forgets the shapes of classes that a program can make. Their descriptors refer to the classes, and would keep them."""
    for address, (_, shape) in list(_shapes.items()):
        if shape.of_program:
            del _shapes[address]


# Python 3.8 has other names for these. They are found by address, since a class may have a hash of its own.
_REFERENCES = {
    id(kind): "weakref." + name
    for name, kind in (
        ("ReferenceType", weakref.ReferenceType),
        ("ProxyType", weakref.ProxyType),
        ("CallableProxyType", weakref.CallableProxyType),
    )
}


def type_name(kind: type) -> str:
    """The qualified name of a type, with its module where that isn't builtins, as a trace may have it."""
    if id(kind) in _REFERENCES:
        return _REFERENCES[id(kind)]
    module, name = module_of(kind), qualified_name(kind)
    return legal_name(name if module in ("", "builtins") else "%s.%s" % (module, name))


def module_of(kind: type) -> str:
    """The name of the module of a type; empty where it has none."""
    try:
        module = _module(kind)
    except AttributeError:
        module = None
    return module if isinstance(module, str) else ""


def is_own_frame(frame: types.FrameType) -> bool:
    """Whether a frame runs a function of the recorder."""
    return _is_own(frame.f_globals)


def _is_own(names: Dict[str, Any]) -> bool:
    """Whether these are the globals of a module of the recorder, whose tables no program fills."""
    name = names.get("__name__")
    return type(name) is str and (name + ".").startswith(OWN_MODULES)


def object_name(obj: Any, shape: Shape) -> str:
    """The type of an object as the trace has it. Functions, modules and the like are told apart by their names."""
    return shape.name if shape.namer is None else shape.namer(obj)


def has_own_names(kind: type) -> bool:
    """Whether objects of the type are told apart by their names, so that none has the type's name."""
    return _namer(kind) is not None


def _namer(kind: type) -> Optional[Callable[[Any], str]]:
    if issubclass(kind, type):
        return lambda obj: legal_name("class " + type_name(obj))
    if issubclass(kind, types.ModuleType):
        return _module_name
    return _NAMERS[kind] if id(kind) in _NAMED else None


def _module_name(obj: types.ModuleType) -> str:
    name = _module_dict(obj).get("__name__")
    return legal_name("module " + name) if type(name) is str else type_name(type(obj))


def _function_name(obj: types.FunctionType) -> str:
    module = obj.__module__
    return legal_name("function %s%s" % (module + "." if type(module) is str else "", obj.__qualname__))


def _method_name(obj: types.MethodType) -> str:
    function = obj.__func__
    return legal_name(
        "method " + (function.__qualname__ if type(function) is types.FunctionType else type_name(type(function)))
    )


def _generator_name(word: str, code: str) -> Callable[[Any], str]:
    """How generators and the like are named. Their frames would tell their modules, and be made for that; files tell them too."""
    return lambda obj: legal_name(
        "%s %s.%s" % (word, _module_of_file(getattr(obj, code).co_filename), obj.__qualname__)
    )


_modules_of_files: Dict[str, str] = {}


def _module_of_file(path: str) -> str:
    """The name of the module that was read from a file; where none was, the file's own name."""
    found = _modules_of_files.get(path)
    if found is None:
        for name, module in list(sys.modules.items()):
            file = _module_dict(module).get("__file__") if isinstance(module, types.ModuleType) else None
            if type(file) is str and type(name) is str:
                _modules_of_files.setdefault(file, name)
        stem = os.path.splitext(os.path.basename(path))[0] or path
        found = _modules_of_files.setdefault(path, stem)
    return found


_NAMERS: Dict[type, Callable[[Any], str]] = {
    types.FrameType: lambda obj: legal_name("frame %s" % obj.f_code.co_name),
    types.FunctionType: _function_name,
    types.MethodType: _method_name,
    types.GeneratorType: _generator_name("generator", "gi_code"),
    types.CoroutineType: _generator_name("coroutine", "cr_code"),
    types.AsyncGeneratorType: _generator_name("async_generator", "ag_code"),
}
_NAMED = frozenset(map(id, _NAMERS))


_ITEMS_OF_BLOCK = 64
_BLOCK = deque(range(_ITEMS_OF_BLOCK + 1)).__sizeof__() - deque().__sizeof__()


def _deque_size(obj: Any) -> int:
    """The bytes of a deque by its length: where one end is filled and the other emptied, it has a block more now and then."""
    blocks = max(-(-deque.__len__(obj) // _ITEMS_OF_BLOCK), 1)
    return deque.__sizeof__(obj) % _BLOCK + blocks * _BLOCK


def _new_shape(kind: type) -> Shape:
    own_dict, members = None, []
    size: Optional[Callable[[Any], int]] = None
    for base in _order(kind) or ():  # a type of C code that isn't ready has none
        for name, found in list(class_dict(base).items()):
            if name == "__dict__" and type(found) in (types.GetSetDescriptorType, types.MemberDescriptorType):
                own_dict = own_dict or found
            elif type(found) is types.MemberDescriptorType and kind is not types.FunctionType:
                members.append(("." + name, found))
            elif name == "__sizeof__" and size is None and type(found) is types.MethodDescriptorType:
                size = _deque_size if base is deque else found
    inner = issubclass(kind, (type, types.ModuleType)) or kind is types.FrameType
    left_out = kind in PLAIN or kind in _LEFT_OUT or (module_of(kind) + ".").startswith(OWN_MODULES)
    return Shape(
        type_name(kind),
        left_out,
        inner,
        kind.__weakrefoffset__ != 0,
        kind not in _UNCHANGING,
        _reader(kind),
        own_dict,
        tuple(members),
        size or object.__sizeof__,
        _GC_HEAD if _flags(kind) & _HAS_GC else 0,
        bool(_flags(kind) & _IS_HEAP_TYPE),
        _namer(kind),
    )


def _reader(kind: type) -> Callable[[Any, Shape], List[Content]]:
    """How the contents of objects of the type are read."""
    if kind is dict:
        return lambda obj, shape: _items(obj)
    if kind is list or kind is tuple:
        return lambda obj, shape: list(enumerate(obj))
    if kind is types.FunctionType:
        return _of_function
    if kind is CellType:
        return lambda obj, shape: [(".cell_contents", held) for held in gc.get_referents(obj)]
    if kind in _GENERATORS:
        return _of_generator
    if kind is types.FrameType:
        return _of_frame
    if issubclass(kind, type):
        return _of_class
    if issubclass(kind, types.ModuleType):
        return _of_module
    if kind is types.TracebackType:
        return lambda obj, shape: [(".tb_frame", obj.tb_frame), (".tb_next", obj.tb_next)]
    return _of_instance if _holds_by_its_dict(kind) else _of_any


class _Plain:
    """A class of a program without anything of its own."""


def _holds_by_its_dict(kind: type) -> bool:
    """Whether objects of the type hold nothing but what stands in their __dict__: classes of a program, without slots and built-in bases."""
    bases = [base for base in _order(kind) or (kind,) if base is not object]
    return (
        kind.__basicsize__ == _Plain.__basicsize__
        and kind.__dictoffset__ == _Plain.__dictoffset__
        and kind.__itemsize__ == 0
        and all(_flags(base) & _IS_HEAP_TYPE and "__slots__" not in class_dict(base) for base in bases)
    )


def _of_instance(obj: Any, shape: Shape) -> List[Content]:
    return _attributes(shape.own_dict.__get__(obj))


def contents(obj: Any, shape: Shape, deep: bool = False) -> List[Content]:
    """All that the object holds, plain values among it. Another thread may change it meanwhile, so it is tried again.

    `deep` says that classes and the globals of functions are held too.
    """
    for _ in range(100):
        try:
            found = shape.reader(obj, shape)
            break
        except RuntimeError:  # changed size during iteration
            continue
    else:
        found = [("(held)", held) for held in gc.get_referents(obj)]
    if deep:
        if shape.of_program:
            found.append(("(class)", type(obj)))
        if type(obj) is types.FunctionType and not _is_own(obj.__globals__):
            found.append(("(globals)", _module_with(obj.__globals__)))
    return found


def size_of(obj: Any, shape: Shape) -> int:
    """The bytes of an object itself and of its __dict__."""
    size = shape.size(obj) + shape.head
    if shape.own_dict is not None and not shape.inner:
        merged = shape.own_dict.__get__(obj)
        if type(merged) is dict:
            size += dict.__sizeof__(merged) + _GC_HEAD
    return size


def _module_with(names: Dict[str, Any]) -> Any:
    """The module whose globals these are; the dict itself where no module has it."""
    module = sys.modules.get(names.get("__name__", "")) if type(names.get("__name__")) is str else None
    return module if isinstance(module, types.ModuleType) and _module_dict(module) is names else names


def key_label(key: Any) -> str:
    """The label of a dict's value."""
    if type(key) is str and len(key) < 60 and key.isprintable():
        return "[%r]" % key
    return "[%s]" % _key_text(key)


def _key_text(key: Any) -> str:
    """A key as the report shows it. No method of the program's own runs."""
    kind = type(key)
    if kind is str or kind is bytes:
        return cut(repr(key[:60]), 64)
    if kind in PLAIN:
        return cut(repr(key), 64)
    if kind is tuple and len(key) <= 8:
        return "(%s)" % cut(", ".join(map(_key_text, key)), 80)
    return "a " + cut(type_name(kind), 60)


def _items(obj: dict) -> List[Content]:
    found: List[Content] = []
    for key, held in list(dict.items(obj)):
        kind = type(held)
        if kind not in PLAIN:
            found.append((key_label(key), held))
        elif (kind is str or kind is bytes) and len(held) > LONG_TEXT:
            found.append(("(text)", held))
        if type(key) not in PLAIN:
            found.append(("(key)", key))
    return found


def values_of(obj: Any, found: List[Content]) -> List[Content]:
    """The plain values that an object holds, by what was found to be held; of a dict its keys and values too."""
    if isinstance(obj, dict):
        pairs = list(dict.items(obj))
        return [("[*]", one) for pair in pairs for one in pair if type(one) in VALUES]
    return [("[*]" if isinstance(label, int) else label, one) for label, one in found if type(one) in VALUES]


def _attributes(names: Dict[str, Any]) -> List[Content]:
    return [
        (_ATTRIBUTE_LABELS.get(name) or _attribute_label(name), held)
        for name, held in list(names.items())
        if type(name) is str
    ]


_ATTRIBUTE_LABELS: Dict[str, str] = {}


def _attribute_label(name: str) -> str:
    label = "." + name
    if len(_ATTRIBUTE_LABELS) < 10000:
        _ATTRIBUTE_LABELS[name] = label
    return label


def _of_any(obj: Any, shape: Shape) -> List[Content]:
    """Attributes, elements and items by their names, and whatever else gc.get_referents finds."""
    kind = type(obj)
    found: List[Content] = []
    merged = None
    if kind not in PROXIES:
        if shape.own_dict is not None:
            merged = shape.own_dict.__get__(obj)
            if type(merged) is dict:
                found += _attributes(merged)
        for label, member in shape.members:
            try:
                found.append((label, member.__get__(obj)))
            except AttributeError:
                continue  # the slot is empty
        if issubclass(kind, dict):
            found += _items(obj)
        elif issubclass(kind, (list, tuple)):
            found += enumerate(list.__iter__(obj) if issubclass(kind, list) else tuple.__iter__(obj))
        elif issubclass(kind, deque):
            found += enumerate(list(deque.__iter__(obj)))
        elif issubclass(kind, (set, frozenset)):
            elements = set.__iter__(obj) if issubclass(kind, set) else frozenset.__iter__(obj)
            found += [("(element)", one) for one in list(elements)]
        elif shape.name == "numpy.ndarray":
            found += _of_array(obj)
    found += _unnamed(gc.get_referents(obj), found, merged, kind)
    if _is_connection(kind):
        found = [(label, held) for label, held in found if not (label == "(held)" and _has_only_weak_references(held))]
    if issubclass(kind, weakref.ReferenceType):
        target = weakref.ReferenceType.__call__(obj)
        if target is not None:
            found.append((WEAK, target))
    return found


def _is_connection(kind: type) -> bool:
    """Whether objects of the type are connections of sqlite3, which keep lists of weak references to their cursors."""
    sqlite3 = sys.modules.get("sqlite3")
    return sqlite3 is not None and any(base is sqlite3.Connection for base in _order(kind))


def _has_only_weak_references(obj: Any) -> bool:
    return type(obj) is list and all(type(one) is weakref.ReferenceType for one in obj)


def _of_array(obj: Any) -> List[Content]:
    """The elements of an array of objects of numpy, which Python's collector doesn't know."""
    numpy = sys.modules.get("numpy")
    if numpy is None or type(obj) is not numpy.ndarray or not obj.dtype.hasobject:
        return []
    return list(enumerate(obj.reshape(-1).tolist()))


def _unnamed(referents: List[Any], named: List[Content], *others: Any) -> List[Content]:
    """The referents that stand under no name yet, each as often as it is left over, without the others."""
    left: Dict[int, int] = {}
    for _, held in named:
        left[id(held)] = left.get(id(held), 0) + 1
    skipped = {id(other) for other in others}
    found: List[Content] = []
    for held in referents:
        if id(held) in skipped:
            continue
        if left.get(id(held), 0):
            left[id(held)] -= 1
        else:
            found.append(("(held)", held))
    return found


def _of_function(obj: Any, shape: Shape) -> List[Content]:
    """The variables that a function closes over, its defaults and attributes; not its module's globals."""
    closure = obj.__closure__
    found: List[Content] = [
        ("(variable %s)" % name, cell) for name, cell in zip(obj.__code__.co_freevars, closure or ())
    ]
    merged = shape.own_dict.__get__(obj)
    found += _attributes(merged)
    for label, held in ((".__defaults__", obj.__defaults__), (".__kwdefaults__", obj.__kwdefaults__)):
        if held is not None:
            found.append((label, held))
    return found + _unnamed(
        gc.get_referents(obj), found, merged, obj.__globals__, getattr(obj, "__builtins__", None), closure
    )


def _of_generator(obj: Any, shape: Shape) -> List[Content]:
    """The variables of a generator or coroutine that waits. Its frame is left out, what the frame holds isn't."""
    found: List[Content] = []
    for held in gc.get_referents(obj):
        if type(held) is types.FrameType:
            globals_of = (held.f_globals, held.f_builtins)
            inner = [one for one in gc.get_referents(held) if not any(one is left for left in globals_of)]
            found += [("(local)", one) for one in inner if one is not obj]
        else:
            found.append(("(local)", held))
    return found


def locals_of(frame: types.FrameType) -> Dict[str, Any]:
    """The variables of a frame. The dict that Python makes to tell them is emptied again, or it would hold them from now on."""
    told = frame.f_locals
    if told is frame.f_globals:
        return {}
    found = dict(told)
    code = frame.f_code
    is_made = type(told) is dict and code.co_flags & _OPTIMIZED
    # This function and the frame hold the dict; who else has it called locals(), or traces the program.
    if (
        is_made
        and sys.getrefcount(told) <= 3
        and frame.f_trace is None
        and sys.gettrace() is None
        and sys.getprofile() is None
    ):
        for name in code.co_varnames + code.co_cellvars + code.co_freevars:
            told.pop(name, None)
    return found


def _of_frame(obj: types.FrameType, shape: Shape) -> List[Content]:
    """The variables of a frame, and what else it holds; not its globals, and not who called it."""
    found: List[Content] = [("(local %s)" % name, held) for name, held in locals_of(obj).items()]
    return found + _unnamed(gc.get_referents(obj), found, obj.f_globals, obj.f_builtins, obj.f_code, obj.f_back)


def _of_class(obj: type, shape: Shape) -> List[Content]:
    found = _attributes(class_dict(obj))
    return found + [("(base)", base) for base in _bases(obj)]


def _of_module(obj: types.ModuleType, shape: Shape) -> List[Content]:
    if _is_own(_module_dict(obj)):
        return []
    found = _attributes(_module_dict(obj))
    return found + _unnamed(gc.get_referents(obj), found, _module_dict(obj))

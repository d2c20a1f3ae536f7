"""All that a Python process holds as roots: modules, running frames, what the interpreter holds, and classes."""
import contextvars
import signal
import sys
import types
from typing import Any, Iterator, Tuple

from .collector import tracked_objects
from .contents import OWN_MODULES, module_of, shape_of, type_name
from .holders import running_frames
from .walk import Walk


def everything(walk: Walk) -> None:
    """Makes a walk go from everything. Classes that it didn't reach then are roots of their own."""
    walk.from_roots([(name, obj) for name, obj in _modules()])
    walk.from_roots(list(_interpreter()))
    walk.from_roots(list(_frames()))
    classes = [
        obj
        for obj in tracked_objects()
        if isinstance(obj, type) and not walk.has(obj) and not (module_of(obj) + ".").startswith(OWN_MODULES)
    ]
    walk.from_roots([("class " + type_name(cls), cls) for cls in classes])


def _modules() -> Iterator[Tuple[str, Any]]:
    for name, module in list(sys.modules.items()):
        if module is not None and isinstance(name, str) and not (name + ".").startswith(OWN_MODULES):
            yield "module " + name, module


def _frames() -> Iterator[Tuple[str, types.FrameType]]:
    for thread, frame in running_frames():
        yield "frame %s:%d (thread %s)" % (frame.f_code.co_name, frame.f_lineno, thread), frame


def _interpreter() -> Iterator[Tuple[str, Any]]:
    """What Python holds outside of modules: handlers of signals, callbacks, and contexts."""
    for number in signal.valid_signals():
        handler = signal.getsignal(number)
        if callable(handler) and not isinstance(handler, signal.Handlers):
            yield "handler of signal %d" % number, handler
    yield "context", contextvars.copy_context()
    for obj in tracked_objects():
        if type(obj) is contextvars.Context:
            yield "context", obj
    for name in ("profile", "trace"):
        hook = getattr(sys, "get" + name)()
        if hook is not None and not shape_of(hook).left_out:
            yield name + " function", hook

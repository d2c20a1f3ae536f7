"""Auditing one heap of a fleet, in whatever process: a heap that can't be audited is an answer too."""
import argparse
import contextlib
import importlib
import os
import tempfile
from typing import Iterator, NamedTuple, Optional, Tuple

from ..errors import TraceError
from ..graphs.loading import opened_heap
from ..progress import Progress
from ..traces.names import printable
from ..traces.opening import trace_file
from .audit import audit, need_assertions
from .fleet import Part, part_of_view
from .view import view_of


class Task(NamedTuple):
    """A heap that is to be audited, and how."""

    place: int  # in the fleet
    path: str
    shown: str  # the path as it is told
    wishes: argparse.Namespace  # what is asserted of dumps, and kept of them; whether heaps are large
    program: Optional[str]
    options: Tuple[str, ...]  # for gcaudit
    may_be_empty: bool


class _Silence(Progress):
    """A heap of many says nothing by itself."""

    def at(self, step: str, done: int = 0, whole: int = 0) -> None:
        pass

    def say(self, text: str) -> None:
        pass


def audited_heap(task: Task) -> Part:
    """What a heap has, or why it could not be audited."""
    try:
        with _as_trace(task) as (trace, is_dump):
            return _audited(task, trace, is_dump)
    except TraceError as error:
        why = str(error)
    except MemoryError:
        why = "out of memory"
    except OSError as error:
        why = "%s: %s" % (error.filename or task.path, error.strerror or error)
    except Exception as error:  # a damaged dump may lead a reader anywhere; that is no reason to lose the other heaps
        why = "%s: %s" % (type(error).__name__, error)
    return not_audited(task, why)


def not_audited(task: Task, why: str) -> Part:
    """What is known of a heap that could not be audited: a sentence, which names it."""
    why = printable(why).replace(printable(task.path), task.shown)
    return Part({}, {}, {task.place: why if task.shown in why else "%s: %s" % (task.shown, why)})


@contextlib.contextmanager
def _as_trace(task: Task) -> Iterator[Tuple[str, bool]]:
    """The heap as a trace, which for a dump is a temporary one, and whether it is a dump."""
    with opened_heap(task.path) as (file, converter):
        if file is not None and converter is not None:
            with tempfile.TemporaryDirectory(prefix="gcaudit-") as folder:
                trace = os.path.join(folder, "heap.jsonl")
                asked = argparse.Namespace(
                    **{**vars(task.wishes), "dump": task.path, "trace": trace, "snapshot": False}
                )
                importlib.import_module(converter + ".convert").convert(file, asked, _Silence(""))
                yield trace, True
            return
    with trace_file(task.path) as trace:
        yield trace, False


def _audited(task: Task, trace: str, is_dump: bool) -> Part:
    try:
        done = audit(trace, task.program, task.options, _Silence(""), task.wishes.large)
        if not done.verdicts and not task.may_be_empty:
            need_assertions(trace, task.path)
        return part_of_view(task.place, view_of(done, trace, task.path), is_dump)
    except TraceError as error:
        raise TraceError(str(error).replace(trace, task.path)) from None

"""The graphs of files: traces and heap dumps, told apart by how they begin."""
import contextlib
import importlib
import os
import re
from typing import BinaryIO, Iterator, List, Optional, Tuple

from ..errors import TraceError
from ..progress import Progress
from ..traces.opening import opened, trace_file
from .graph import Graph
from .trace_heap import heaps

_BEGINNING = 64
_OF_RUBY = re.compile(rb'\{"(address": ?"0x|type": ?"ROOT")')


def _converter_of(beginning: bytes) -> Optional[str]:
    """The package that reads a file which begins so; None for a trace."""
    if beginning.startswith(b"JAVA PROFILE"):
        return "hprof_to_trace"
    text = beginning.lstrip()
    if text.startswith(b"{") and text[1:].lstrip().startswith(b'"snapshot"'):
        return "heapsnapshot_to_trace"
    if _OF_RUBY.match(text):
        return "rubyheap_to_trace"
    return None


@contextlib.contextmanager
def opened_heap(path: str) -> Iterator[Tuple[Optional[BinaryIO], Optional[str]]]:
    """The file of a dump and the package that reads it; neither where it is a trace."""
    if path == "-":
        yield None, None
        return
    with opened(path) as file:
        beginning = file.read(_BEGINNING)
        file.seek(0)
        converter = _converter_of(beginning)
        if converter is None and beginning.startswith(b"heapsnap "):
            raise TraceError(
                "%s is a snapshot for gcsnap: gcsnap to-trace makes a trace of it, and a collection belongs behind that"
                % path
            )
        if converter is None and not beginning.lstrip().startswith(b"{") and beginning.strip():
            raise TraceError("%s is neither a trace nor a heap dump: HPROF, a snapshot of V8, or a dump of Ruby" % path)
        yield (file if converter else None), converter


def last_graph(path: str, progress: Progress) -> Graph:
    """What the last collection of a trace traces, or the heap of a dump: all of its objects, reached or not."""
    with opened_heap(path) as (file, converter):
        if file is not None and converter is not None:
            return importlib.import_module(converter + ".whole_graph").graph_of(file, path, progress)
    with trace_file(path) as trace:
        size = os.path.getsize(trace)
        last = 0
        with open(trace, "rb") as lines:
            last = sum(b'"collect"' in line for line in lines)
        for collection, heap in enumerate(heaps(trace, lambda done: progress.at("reading the trace", done, size)), 1):
            if collection == last:
                return heap.graph()
        raise TraceError("%s has no collection in it" % path)


def every_graph(path: str, progress: Progress) -> List[Graph]:
    """The heaps at all collections of a trace."""
    with opened_heap(path) as (file, _):
        if file is not None:
            raise TraceError("%s is one heap; two heaps at least are compared" % path)
    with trace_file(path) as trace:
        size = os.path.getsize(trace)
        found = [heap.graph() for heap in heaps(trace, lambda done: progress.at("reading the trace", done, size))]
    if len(found) < 2:
        raise TraceError("%s has %d collections; two heaps at least are compared" % (path, len(found)))
    return found

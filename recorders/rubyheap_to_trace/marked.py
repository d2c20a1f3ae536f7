"""Reads a heap dump of Ruby, and audits what gcaudit's library for Ruby asserted of single objects. A mark is the address of its object.

The dump was written by a thread of the library, so the machine's stack (`machine_context`) has nothing of the program on it. It isn't
read, and neither are the library's own objects.
"""
import argparse
import sys
from typing import BinaryIO, Dict, Iterator, List, Set, Tuple

from gcaudit_trace import TraceError
from gcaudit_trace.commands import marked
from gcaudit_trace.dumps.command import say_left_out
from gcaudit_trace.dumps.marks import (
    Assertion,
    Mark,
    Marked,
    MarkedTrace,
    MarkedWishes,
    TooManyObjects,
    more_to_leave_out,
    say_too_many,
)
from gcaudit_trace.progress import Progress

from .convert import CLASS_TYPES, PLAIN, Heap

_LIBRARY = "GcAudit"
_OF_WRITER = "machine_context"


def _is_own(name: str) -> bool:
    return name == _LIBRARY or name.startswith(_LIBRARY + "::")


class MarkedHeap(Heap):
    """A dump with marked objects."""

    def __init__(
        self, file: BinaryIO, name: str, wishes: MarkedWishes, progress: Progress, assertions: List[Assertion]
    ) -> None:
        super().__init__(file, name, wishes, progress)
        self._wishes = wishes
        self._marks = {mark for one in assertions for mark in one.marks()}
        self._counted = {one.type_name for one in assertions if one.kind == "instances"}

    def number_of(self, mark: Mark) -> int:
        """The number of a mark's object in the trace; 0 where it is gone."""
        number = self.code_at(mark) if isinstance(mark, int) else 0
        if number < 0:
            raise TraceError("an object of which something is asserted is left out")
        return number

    def class_of(self, mark: Mark) -> str:
        """The name of the class at an address."""
        if not isinstance(mark, int) or mark not in self.classes:
            raise TraceError(
                "the dump has no class of which the number of objects is asserted: it is one of another moment"
            )
        return self.classes.name_of(mark)

    def _keeps(self, place: int) -> bool:
        kind, _, _ = self._kind_keys[place]
        if kind in PLAIN and self._class_names[place] in self._counted:
            return True
        return super()._keeps(place)

    def _wanted(self) -> Set[int]:
        return {self.nodes[mark] for mark in self._marks if isinstance(mark, int) and mark in self.nodes}

    def _is_ignored(self, place: int) -> bool:
        kind, _, address = self._kind_keys[place]
        return _is_own(self.classes.owner_name(address) if kind in CLASS_TYPES else self._class_names[place])

    def _root_references(self) -> Iterator[Tuple[str, int]]:
        return (found for found in super()._root_references() if found[0] != _OF_WRITER)


class _Trace(MarkedTrace):
    def __init__(self, path: str, wishes: MarkedWishes, assertions: List[Assertion], heap: MarkedHeap) -> None:
        super().__init__(path, wishes, assertions)
        self._heap = heap

    def number_of(self, mark: Mark) -> int:
        return self._heap.number_of(mark)

    def class_of(self, mark: Mark) -> str:
        return self._heap.class_of(mark)

    def key_of(self, number: int) -> int:
        """None, since Ruby gives an address to another object later; so each check has a trace of its own."""
        return 0


def convert(
    file: BinaryIO, asked: argparse.Namespace, assertions: List[Assertion], progress: Progress, with_classes: bool
) -> Marked:
    """Writes the trace of a dump with the assertions about its marks. Where it has too many objects, some classes are left out."""
    wanted = {name for one in assertions for name in (one.type_name, one.owner_type)}
    left_out: Set[str] = set()
    while True:
        wishes = MarkedWishes(assertions, _is_own, left_out)
        heap = MarkedHeap(file, asked.dump, wishes, progress, assertions)
        try:
            heap.read()
            stay = heap.pass_over()
            break
        except TooManyObjects as many:
            left_out = more_to_leave_out(many.counts, wanted, left_out)
    said: Dict[str, int] = {one: count for one, count in heap.left_out.items() if not _is_own(one)}
    say_too_many(left_out, progress)
    say_left_out(said, stay, heap.left, wishes, progress)
    out = _Trace(asked.trace, wishes, assertions, heap)
    with out:
        heap.write(out)
        out.finish(heap.roots(), progress)
    return out.marked()


def main(words=None) -> int:
    return marked.main(
        "rubyheap_to_trace.marked",
        "Audits a heap dump of Ruby in which gcaudit's library for Ruby has marked objects.",
        convert,
        words,
    )


if __name__ == "__main__":
    sys.exit(main())

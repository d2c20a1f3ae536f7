"""Reads a heap snapshot of V8 in which the library for Node has marked objects, and audits what it asserted of them.

A mark is a property of the library's registry: its name, which no other property has, leads to a WeakRef, and that to the marked
object by a weak edge. Neither is in the trace.
"""
import argparse
import sys
from array import array
from typing import Any, BinaryIO, Dict, Iterable, Iterator, List, Set

from gcaudit_trace import TraceError
from gcaudit_trace.commands import marked
from gcaudit_trace.dumps.command import say_left_out
from gcaudit_trace.dumps.marks import (
    Assertion,
    Mark,
    Marked,
    MarkedTrace,
    MarkedWishes,
    TooManyObjects,
    more_to_leave_out,
    say_too_many,
)
from gcaudit_trace.progress import Progress

from .convert import Snapshot
from .reader import Reader

# V8 tells what is in these stores a second time, as properties and elements of the object that has the store.
_STORES = frozenset(
    {("array", "(object elements)"), ("array", "(object properties)"), ("hidden", "system / PropertyArray")}
)
_GONE = "system / Oddball"  # what a WeakRef holds in place of an object that is gone
_TARGET = "target"
_PATTERN = "transition_info"  # leads to the object of which V8 makes copies for a literal of the program
_OF_PROGRAMS = frozenset({"object", "closure", "regexp"})  # kinds of node that a program allocates by itself
_LEAVE_OUT_CLASSES: Dict[str, List[str]] = {"": []}  # the reader leaves them out where something is owned
_OF_RUNTIME = ("system", "Gcaudit", "(")


def _is_own(name: str) -> bool:
    return name.startswith("Gcaudit")


class _Kept:
    """A reader that keeps the value that it reads."""

    def __init__(self, reader: Reader) -> None:
        self._reader = reader
        self.found: Any = None

    def value(self) -> Any:
        self.found = self._reader.value()
        return self.found


class MarkedSnapshot(Snapshot):
    """A snapshot with marks. After `find_marks`, `targets` has the number in the trace of each mark's object, 0 where it is gone."""

    def __init__(
        self,
        file: BinaryIO,
        name: str,
        wishes: MarkedWishes,
        progress: Progress,
        marks: Set[Mark],
        finds_classes: bool,
    ) -> None:
        super().__init__(file, name, wishes, progress)
        self._finds_classes = finds_classes
        self._marks = marks
        self._id_at = 0
        self._is_hidden: bytes = b""
        self.ids = array("Q")  # of each node
        self.targets: Dict[Mark, int] = {}
        self.patterns: Set[int] = set()  # the codes of objects of which V8 makes copies
        self.marked_nodes: Dict[Mark, int] = {}  # of the marks whose objects are alive

    def _take_meta(self, reader: Any) -> None:
        kept = _Kept(reader)
        super()._take_meta(kept)  # type: ignore[arg-type]
        try:
            self._id_at = kept.found["meta"]["node_fields"].index("id")
        except ValueError:
            raise self._wrong("its nodes have no numbers") from None

    def _rows(self, reader: Reader, width: int) -> Iterator[List[int]]:
        for rows in super()._rows(reader, width):
            if width == self._node_width and len(self.ids) < len(self.kinds) + len(rows) // width:
                self.ids.extend(rows[self._id_at :: width])
            yield rows

    def _is_object(self) -> bytes:
        """Stores are none once the names are known, since what they hold is told of their objects."""
        found = bytearray(super()._is_object())
        if self.texts:
            stores = {
                (self.kind_words.index(kind), name)
                for name, text in self.texts.items()
                for kind, store in _STORES
                if text == store and kind in self.kind_words
            }
            for node, key in enumerate(zip(self.kinds, self.names)):
                if key in stores:
                    found[node] = 0
        return bytes(found)

    def find_marks(self) -> None:
        """Finds what the marks lead to, and takes the marks themselves out of what is kept."""
        names = {name: text for name, text in self.texts.items() if text in self._marks}
        if len(names) < len(self._marks):
            raise TraceError(
                "%s lacks %d of the %d objects of which something is asserted: it is a snapshot of another moment, or of another program"
                % (self.name, len(self._marks) - len(names), len(self._marks))
            )
        of_mark, held_weakly = self._mark_edges(names)
        for mark in self._marks:
            if not of_mark.get(mark):
                raise TraceError(
                    "%s has a mark without an object: it was made by another version of the library" % self.name
                )
            target = held_weakly.get(of_mark[mark], 0)
            node = self._node_of(target)
            if node and self.class_of(node) != _GONE and self._text_of(node) != _GONE:
                self.targets[mark], self.marked_nodes[mark] = target, node
            else:
                self.targets[mark] = 0
        for ref in of_mark.values():
            self.codes[self._node_of(ref)] = 0

    def _node_of(self, code: int) -> int:
        """The node that has a code; the node 0, which is no object, where none has."""
        return self.kept_nodes[code - 1] if code > 0 else self.left_nodes[-1 - code] if code < 0 else 0

    def _mark_edges(self, names: Dict[int, str]):
        """By mark the code of its WeakRef, and by such a code that of its object."""
        of_mark: Dict[Mark, int] = {}
        held_weakly: Dict[int, int] = {}
        by_property, by_v8 = self.edge_words.index("property"), self.edge_words.index("internal")
        targets = {name for name, text in self.texts.items() if text == _TARGET}
        patterns = {name for name, text in self.texts.items() if text == _PATTERN}
        wanted = targets | patterns | set(names)
        for node, holder in enumerate(self.codes):
            for edge in self.edges.of(node):
                name = self.edges.names[edge]
                if name not in wanted:
                    continue
                kind, held = self.edges.kinds[edge], self.codes[self.edges.targets[edge]]
                if kind == by_property:
                    if name in names:
                        of_mark[names[name]] = held
                elif kind == self._weak:
                    if name in targets:
                        held_weakly[holder] = held
                elif name in patterns and kind == by_v8:
                    self.patterns.add(held)
        return of_mark, held_weakly

    def _text_of(self, node: int) -> str:
        return self.texts.get(self.names[node], "")

    def id_of(self, number: int) -> int:
        """The number that V8 gives an object of the trace, from snapshot to snapshot; 0 for what isn't an object of V8."""
        found = self.ids[self.kept_nodes[number - 1]] if number <= len(self.kept_nodes) else 0
        return found if found % 2 else 0

    def closure_name(self, number: int) -> str:
        """The name under which the objects of a class stand, by the number of its constructor."""
        return self._text_of(self.kept_nodes[number - 1])

    def allocated(self, region: Assertion) -> Iterator[int]:
        """The numbers in the trace of what a region has allocated, and that is alive."""
        probe = self.marked_nodes.get(region.mark)
        if probe is None or not region.after < self.ids[probe] <= region.last:
            raise TraceError("%s has no numbers of objects that go as allocations do, which a region needs" % self.name)
        ignored = _OF_RUNTIME + region.ignored
        kinds = {kind for kind, word in enumerate(self.kind_words) if word in _OF_PROGRAMS}
        for number, node in enumerate(self.kept_nodes, 1):
            if region.after < self.ids[node] <= region.last and self.kinds[node] in kinds and self._may_count(number):
                if not self.class_of(node).startswith(ignored) and not self._text_of(node).startswith(_OF_RUNTIME):
                    yield number

    def _may_count(self, number: int) -> bool:
        """Whether a kept node is neither a mark nor V8's own pattern of a literal."""
        return self.codes[self.kept_nodes[number - 1]] > 0 and number not in self.patterns


class _Trace(MarkedTrace):
    def __init__(self, path: str, wishes: MarkedWishes, assertions: List[Assertion], snapshot: MarkedSnapshot) -> None:
        super().__init__(path, wishes, assertions)
        self._snapshot = snapshot
        self._allocated: Dict[Assertion, List[int]] = {}

    def number_of(self, mark: Mark) -> int:
        number = self._snapshot.targets[mark]
        if number < 0:
            raise TraceError("an object of which something is asserted is left out")
        return number

    def key_of(self, number: int) -> int:
        return self._snapshot.id_of(number)

    def class_of(self, mark: Mark) -> str:
        return self._snapshot.closure_name(self.number_of(mark))

    def allocated(self, region: Assertion) -> Iterable[int]:
        if region not in self._allocated:
            self._allocated[region] = list(self._snapshot.allocated(region))
        return self._allocated[region]


def convert(
    file: BinaryIO, asked: argparse.Namespace, assertions: List[Assertion], progress: Progress, with_classes: bool
) -> Marked:
    """Writes the trace of a snapshot with the assertions about its marks. Where it has too many objects, some classes are left out.

    The references from objects to their classes are left out unless they are asked for: they lead to most of the program.
    """
    marks = {mark for one in assertions for mark in one.marks()}
    wanted = {name for one in assertions for name in (one.type_name, one.owner_type)}
    left_out: Set[str] = set()
    while True:
        wishes = MarkedWishes(assertions, _is_own, left_out)
        wishes.owners = {} if with_classes else _LEAVE_OUT_CLASSES
        snapshot = MarkedSnapshot(file, asked.dump, wishes, progress, marks, with_classes)
        try:
            snapshot.read()
            snapshot.find_marks()
            stay = snapshot.pass_over()
            break
        except TooManyObjects as many:
            left_out = more_to_leave_out(many.counts, wanted, left_out)
    say_too_many(left_out, progress)
    say_left_out(snapshot.left_out, stay, snapshot.left, wishes, progress)
    out = _Trace(asked.trace, wishes, assertions, snapshot)
    with out:
        snapshot.write(out)
        out.finish(snapshot.roots(), progress)
    return out.marked()


def main(words=None) -> int:
    return marked.main(
        "heapsnapshot_to_trace.marked",
        "Audits a heap snapshot of V8 in which gcaudit's library for Node has marked objects.",
        convert,
        words,
    )


if __name__ == "__main__":
    sys.exit(main())

"""Reads a heap dump in which the library for Java has marked objects, and audits what it asserted of them.

A mark is an object of the class gcaudit.Mark: a reference with a `number` whose `referent` is the marked object. The library's
own objects are not in the trace.

Where the library has an agent that numbers objects, the static field `objects` of the class gcaudit.Numbering has all objects in
the dump, and a file their numbers in the same order, each of eight bytes. An object keeps its number from dump to dump.
"""
import argparse
import struct
import sys
from array import array
from typing import BinaryIO, Dict, Iterable, Iterator, List, Sequence, Set, Tuple

from gcaudit_trace import TraceError
from gcaudit_trace.commands import marked
from gcaudit_trace.dumps.command import say_left_out
from gcaudit_trace.dumps.marks import (
    Assertion,
    Mark,
    Marked,
    MarkedTrace,
    MarkedWishes,
    TooManyObjects,
    more_to_leave_out,
    say_too_many,
)
from gcaudit_trace.progress import Progress

from .convert import Heap
from .reader import INSTANCE, OBJECT, OBJECT_ARRAY, PRIMITIVE_ARRAY, SIZES, Dump

_MARK = "gcaudit.Mark"
_NUMBERING, _NUMBERED = "gcaudit.Numbering", ".objects"
_OWN = ("gcaudit.", "class gcaudit.")
_CLASS = "class "
_STRING = "java.lang.String"


def _is_own(name: str) -> bool:
    return name.startswith(_OWN)


class MarkedHeap(Heap):
    """The heap of a dump with marks. After `find_objects`, `targets` has the identifier of each mark's object, 0 where it is gone."""

    def __init__(
        self, dump: Dump, wishes: MarkedWishes, progress: Progress, marked: Set[Mark], numbers: Sequence[int]
    ) -> None:
        super().__init__(dump, wishes, progress)
        self._is_own = wishes.is_own
        self._marked = marked
        self._arrays_start = 0  # among `kept_places`: behind them are arrays of primitives, which hold nothing
        self.targets: Dict[Mark, int] = {}
        self._numbers = numbers
        self._numbered_place = 0  # where the record of the array of all numbered objects stands
        self.keys = array("Q")  # the number of each kept object; 0 where it has none

    def find_objects(self) -> None:
        super().find_objects()
        self.targets = self._find_marks()
        missing = self._marked - set(self.targets)
        if missing:
            raise TraceError(
                "%s lacks %d of the %d objects of which something is asserted: it is a dump of another moment, or of another program"
                % (self.dump.name, len(missing), len(self._marked))
            )
        self._arrays_start = len(self.kept_places)
        self._keep_arrays({target for target in self.targets.values() if target and not self.codes.get(target)})
        for target in self.targets.values():
            if target and self.codes.get(target) < 1:
                raise TraceError("%s has an object of which something is asserted, and it is left out" % self.dump.name)
        self._find_numbers()

    def _may_hold(self, class_id: int) -> bool:
        name = self.dump.class_name(class_id)
        if self._is_own(name) or name == _STRING:
            found = self._may_hold_of[class_id] = name == _STRING  # whose array may be asserted dead
            return found
        return super()._may_hold(class_id)

    def _held_by(self, step: str, places: array) -> Iterator[List[int]]:
        return super()._held_by(step, places[: self._arrays_start] if places is self.kept_places else places)

    def _find_marks(self) -> Dict[Mark, int]:
        """The identifier of the object of each mark that is asked for."""
        found: Dict[Mark, int] = {}
        for class_id in self.classes:
            if self.dump.class_name(class_id) == _MARK:
                places = _fields_of(self.dump, self.classes, class_id)
                try:
                    number_at, referent_at = places["number"], places["referent"]
                except KeyError:
                    raise TraceError("%s has marks of another version of the library" % self.dump.name) from None
                for place in _instances(self.dump, class_id):
                    number = struct.unpack_from(">q", self.dump.data, place + number_at)[0]
                    if number in self._marked:
                        found[number] = struct.unpack_from(
                            ">" + self.dump.id_code, self.dump.data, place + referent_at
                        )[0]
        return found

    def _find_numbers(self) -> None:
        """Finds the numbers of the kept objects. The array of all objects holds nothing in the trace."""
        self.keys = array("Q", bytes(8 * len(self.kept_places)))
        if not self._numbers:
            return
        held = [
            to
            for number in self.classes
            if self.dump.class_name(number) == _NUMBERING
            for label, to in self.classes[number].held
            if label == _NUMBERED
        ]
        place = self._place_of(held[0]) if held else 0
        objects = self._elements(place)[1] if place and self.dump.data[place - 1] == OBJECT_ARRAY else ()
        if len(objects) != len(self._numbers):
            raise TraceError(
                "%s lists %d numbered objects, and there are %d numbers"
                % (self.dump.name, len(objects), len(self._numbers))
            )
        self._numbered_place = place
        for identifier, number in zip(objects, self._numbers):
            code = self.codes.get(identifier)
            if code > 0:
                self.keys[code - 1] = number

    def _elements(self, place: int) -> Tuple[int, Tuple[int, ...]]:
        class_id, elements = super()._elements(place)
        return class_id, () if place == self._numbered_place else elements

    def _keep_arrays(self, targets: Set[int]) -> None:
        """Keeps these arrays of primitives, of which something is asserted; the others hold nothing, and are left out."""
        if not targets:
            return
        identifier = struct.Struct(">" + self.dump.id_code)
        for tag, place, _, _ in self.dump.records("reading the arrays"):
            if tag == PRIMITIVE_ARRAY:
                number = identifier.unpack_from(self.dump.data, place)[0]
                if number in targets and self.codes.add(number, len(self.kept_places) + 1):
                    self.kept_places.append(place)

    def derived_from(self, base: str) -> Set[str]:
        """The names of the classes that are or extend this one."""
        found = set()
        for class_id in self.classes:
            at = class_id
            while at in self.classes:
                if self.dump.class_name(at) == base:
                    found.add(self.dump.class_name(class_id))
                    break
                at = self.classes[at].superclass
        return found


def _fields_of(dump: Dump, classes, class_id: int) -> Dict[str, int]:
    """Where the values of fields stand in an object, behind the head of its record, by the names of the fields."""
    found: Dict[str, int] = {}
    at = 0
    while class_id:
        for name, kind in classes[class_id].fields:
            found.setdefault(dump.text(name), at)
            at += dump.id_size if kind == OBJECT else SIZES[kind]
        class_id = classes[class_id].superclass
    return found


def _instances(dump: Dump, class_id: int) -> Iterable[int]:
    """Where the values of the fields of each object of a class may stand: the bytes before that look like the head of its record."""
    wanted, data = struct.pack(">" + dump.id_code, class_id), dump.data
    at = data.find(wanted)
    while at >= 0:
        head, place = at - dump.id_size - 5, at + dump.id_size + 4
        if head >= 0 and data[head] == INSTANCE and place + struct.unpack_from(">I", data, place - 4)[0] <= dump.size:
            yield place
        at = data.find(wanted, at + 1)


class _Trace(MarkedTrace):
    """Notes what finalizers and soft references lead to."""

    def __init__(self, path: str, wishes: MarkedWishes, assertions: List[Assertion], heap: MarkedHeap) -> None:
        super().__init__(path, wishes, assertions)
        self._heap = heap
        self._final = heap.derived_from("java.lang.ref.FinalReference")
        self._soft = heap.derived_from("java.lang.ref.SoftReference")
        self.waiting: List[int] = []
        self.soft: List[int] = []

    def number_of(self, mark: Mark) -> int:
        return self._heap.codes.get(self._heap.targets[mark])

    def key_of(self, number: int) -> int:
        return self._heap.keys[number - 1] if number <= len(self._heap.keys) else 0

    def class_of(self, mark: Mark) -> str:
        return self._heap.dump.class_name(self._heap.targets[mark])

    def object(self, class_name: str, size: int, contents: List[Tuple[str, int, bool]]) -> None:
        if class_name in self._final:
            self.waiting += [to for _, to, weak in contents if weak]
        elif class_name in self._soft:
            self.soft += [to for _, to, weak in contents if weak]
        super().object(class_name, size, contents)


def convert(
    file: BinaryIO, asked: argparse.Namespace, assertions: List[Assertion], progress: Progress, with_classes: bool
) -> Marked:
    """Writes the trace of a dump with the assertions about its marks. Where it has too many objects, some classes are left out.

    The references from objects to their classes are left out where something is owned, unless they are asked for.
    """
    dump = Dump(file, asked.dump, progress)
    marks = {mark for one in assertions for mark in one.marks()}
    numbers = _read_numbers(asked.numbers) if asked.numbers else ()
    wanted = {
        name[len(_CLASS) :] if name.startswith(_CLASS) else name
        for one in assertions
        for name in (one.type_name, one.owner_type)
    }
    left_out: Set[str] = set()
    while True:
        wishes = MarkedWishes(assertions, _is_own, left_out)
        if with_classes:
            wishes.owners = {}
        heap = MarkedHeap(dump, wishes, progress, marks, numbers)
        try:
            heap.find_objects()
            stay = heap.pass_over()
            break
        except TooManyObjects as many:
            left_out = more_to_leave_out(many.counts, wanted, left_out)
    say_too_many(left_out, progress)
    say_left_out(heap.left_out, stay, heap.left, wishes, progress)
    out = _Trace(asked.trace, wishes, assertions, heap)
    with out:
        heap.write(out)
        out.finish(heap.named_roots(), progress)
    return out.marked(out.waiting, out.soft)


def _read_numbers(path: str) -> Sequence[int]:
    numbers = array("Q")
    try:
        with open(path, "rb") as file:
            numbers.frombytes(file.read())
    except (OSError, ValueError) as error:
        raise TraceError("%s can't be read: %s" % (path, error)) from None
    if sys.byteorder == "little":
        numbers.byteswap()
    return numbers


def _add_options(parser: argparse.ArgumentParser) -> None:
    parser.add_argument(
        "--numbers",
        metavar="FILE",
        help="the numbers of the objects that the dump lists, which they keep from dump to dump",
    )


def main(words=None) -> int:
    return marked.main(
        "hprof_to_trace.marked",
        "Audits an HPROF dump in which gcaudit's library for Java has marked objects.",
        convert,
        words,
        _add_options,
    )


if __name__ == "__main__":
    sys.exit(main())

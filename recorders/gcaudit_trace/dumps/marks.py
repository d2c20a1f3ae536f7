"""Assertions about single objects of a heap dump, which a library in the program has marked before the dump was written.

The library holds each object weakly under a mark, a number or a name, and a file says what is asserted of which mark: a line of
JSON for each assertion, with `assert` (dead, region, unshared, ownedby or instances), `mark` and `type`, and as the kind wants it
`owner`, `owner type` and `limit`. A region's object has `of runtime` where its class is the runtime's own.

Where a runtime numbers objects in the order of their allocation, a region's objects need no marks: `allocated` has the numbers
`after` and `last`, the types that it may `ignore`, and the mark of an object that was allocated in between.
"""
import json
from typing import Any, Callable, Dict, Iterable, List, NamedTuple, Set, Tuple, Union

from ..errors import TraceError
from ..progress import Progress
from ..traces.limits import MOST_OBJECTS
from ..traces.names import legal_name
from .options import Wishes, parser_for
from .output import DumpTrace

_NO_CLASS = "(no class)"
_PLAIN_KINDS = ("dead", "region", "unshared")


Mark = Union[int, str]


class Assertion(NamedTuple):
    """What is asserted of a marked object, or of all that a region allocated."""

    kind: str
    mark: Mark = 0
    type_name: str = ""
    owner: Mark = 0  # the mark of the owner; 0 where the kind has none
    owner_type: str = ""
    limit: int = 0
    of_runtime: bool = False
    after: int = 0
    last: int = 0
    ignored: Tuple[str, ...] = ()

    @property
    def wants_death(self) -> bool:
        return self.kind in ("dead", "region", "allocated")

    def marks(self) -> List[Mark]:
        """The marks of its objects."""
        return [mark for mark in (self.mark, self.owner) if mark]


def read_assertions(path: str) -> List[Assertion]:
    """The assertions of a file. One that can't be understood is refused, and so is a file without any."""
    try:
        with open(path, encoding="utf-8") as lines:
            found = [_assertion(line) for line in lines]
    except OSError as error:
        raise TraceError("%s can't be read: %s" % (path, error.strerror or error)) from None
    except (ValueError, KeyError, TypeError):
        raise TraceError("%s has a line that is no assertion about a mark" % path) from None
    if not found:
        raise TraceError("%s asserts nothing" % path)
    return found


def _assertion(line: str) -> Assertion:
    said: Dict[str, Any] = json.loads(line)
    kind = said["assert"]
    if kind == "allocated":
        ignored = tuple(map(str, said["ignore"]))
        return Assertion(kind, _mark(said["mark"]), after=int(said["after"]), last=int(said["last"]), ignored=ignored)
    found = Assertion(kind, _mark(said["mark"]), str(said["type"]), of_runtime=bool(said.get("of runtime")))
    if kind == "ownedby":
        return found._replace(owner=_mark(said["owner"]), owner_type=str(said["owner type"]))
    if kind == "instances":
        return found._replace(limit=int(said["limit"]))
    if kind not in _PLAIN_KINDS:
        raise ValueError(kind)
    return found


def _mark(said: Any) -> Mark:
    if not said or isinstance(said, bool) or not isinstance(said, (int, str)):
        raise ValueError(said)
    return said


class TooManyObjects(Exception):
    """More would be kept than gcaudit takes: how many of each class."""

    def __init__(self, counts: Dict[str, int]) -> None:
        super().__init__()
        self.counts = counts


class MarkedWishes(Wishes):
    """Keeps all but the library's own objects, and some classes where there would be too many objects."""

    def __init__(self, assertions: List[Assertion], is_own: Callable[[str], bool], left_out: Set[str]) -> None:
        super().__init__(parser_for("", "").parse_args(["", ""]))
        self.is_own = is_own
        self._left_out = left_out
        self.named = {_NO_CLASS}  # so that the reader tells prototypes from objects
        self.unshared = {one.type_name for one in assertions if one.kind == "unshared"}
        self.owners = {one.owner_type: [one.type_name] for one in assertions if one.kind == "ownedby"}

    def keeps(self, name: str) -> bool:
        return name not in self._left_out and not self.is_own(name)

    def is_unshared(self, name: str) -> bool:
        return name in self.unshared

    def need_known(self, known: Set[str]) -> None:
        """Each object of which something is asserted is known by its mark."""

    def need_room(self, kept: int, counts: Dict[str, int]) -> None:
        if kept > MOST_OBJECTS:
            raise TooManyObjects(counts)


def say_too_many(left_out: Set[str], progress: Progress) -> None:
    """Says which classes are left out since the heap has more objects than gcaudit takes; the libraries tell it to their users."""
    if left_out:
        progress.say(
            "the heap has more objects than gcaudit takes, %d, so those of %s are left out; references go on through them"
            % (MOST_OBJECTS, ", ".join(sorted(left_out)))
        )


def more_to_leave_out(counts: Dict[str, int], wanted: Set[str], left_out: Set[str]) -> Set[str]:
    """The most frequent classes of which nothing is asserted, until the others are less than half of what gcaudit takes.

    References go on through what is left out, so a path has fewer steps and leads to the same object.
    """
    kept, found = sum(counts.values()), set(left_out)
    for name, count in sorted(counts.items(), key=lambda one: -one[1]):
        if kept <= MOST_OBJECTS // 2:
            break
        if name not in wanted:
            found.add(name)
            kept -= count
    if found == left_out:
        raise TraceError(
            "the objects of the classes of which something is asserted are more than gcaudit takes, %d" % MOST_OBJECTS
        )
    return found


class MarkedTrace(DumpTrace):
    """A trace with the assertions about marked objects."""

    def __init__(self, path: str, wishes: Wishes, assertions: List[Assertion]) -> None:
        super().__init__(path, wishes)
        self._assertions = assertions

    def number_of(self, mark: Mark) -> int:
        """The number of a mark's object in the trace; 0 where it is gone."""
        raise NotImplementedError

    def class_of(self, mark: Mark) -> str:
        """The class whose object is marked, under the name of its objects' types."""
        raise NotImplementedError

    def allocated(self, region: Assertion) -> Iterable[int]:
        """The numbers in the trace of what a region has allocated."""
        raise NotImplementedError

    def key_of(self, number: int) -> int:
        """The key by which a later dump of the process knows an object; 0 where none does."""
        raise NotImplementedError

    def _alloc(self, class_name: str, size: int, slots: int) -> int:
        """An object that a later dump knows has a slot to spare, which can lead to further ones."""
        key = self.key_of(self.trace.last_id + 1)
        return self.trace.alloc(self._type_of(class_name), slots + (1 if key else 0), 0, size, key)

    def must_be_dead(self, assertion: Assertion) -> Iterable[int]:
        """The numbers of its objects which are alive, where the assertion says that they are dead."""
        if assertion.kind == "allocated":
            return self.allocated(assertion)
        number = self.number_of(assertion.mark) if assertion.wants_death else 0
        return [number] if number else []

    def _assert(self, progress: Progress) -> None:
        for one in self._assertions:
            if one.wants_death:
                for number in self.must_be_dead(one):
                    self.trace.assert_dead(number)
                continue
            number = self.number_of(one.mark)
            if not number:
                continue
            if one.kind == "unshared":
                self.trace.assert_unshared(number)
            elif one.kind == "instances":
                self.trace.assert_instances(legal_name(self.class_of(one.mark)), one.limit)
            else:
                # An owner that is gone is an object that nothing holds, and that holds nothing.
                owner = self.number_of(one.owner) or self.trace.alloc(legal_name(one.owner_type), 0)
                if owner != number:
                    self.trace.assert_owned_by(owner, number)

    def marked(self, waiting: Iterable[int] = (), soft: Iterable[int] = ()) -> "Marked":
        """What was written, for whoever asks why something is alive."""
        dead = {number for one in self._assertions for number in self.must_be_dead(one)}
        lenient = {number for one in self._assertions if one.of_runtime for number in self.must_be_dead(one)}
        return Marked(dead, lenient, list(waiting), list(soft))


class Marked(NamedTuple):
    """The objects of a trace that must be dead and are alive, and what its weak references lead to."""

    dead: Set[int]
    lenient: Set[int]  # of these, those that may stay where no root leads to them
    waiting: List[int]  # objects that may wait for their finalizers
    soft: List[int]  # objects that a reference holds until memory is short

"""What gcaudit, gcheap and gcsnap take, and counting what a trace or a snapshot has of it."""
from typing import NamedTuple, Optional, Set

from ..errors import TraceError

MOST_OBJECTS = 1048576
MOST_SLOTS = 16777216
MOST_ROOTS = 65536
LARGE_OBJECTS = 134217728  # in gcheap, which is gcaudit --large
LARGE_SLOTS = 1073741824
LARGE_ROOTS = 1048576
MOST_TYPES = 65536
MOST_ID = 4294967295
MOST_INSTANCES = 4294967295  # the highest limit that can be asserted of a type
LONGEST_SNAPSHOT = 268435456  # bytes


class Room(NamedTuple):
    """How many live objects, slots of all of them, and roots a program takes, and what is said to a person who has more."""

    program: str
    objects: int
    slots: int
    roots: int
    advice: str = ""


def usual_room(advice: str = "") -> Room:
    """What gcaudit takes, and gcsnap."""
    return Room("gcaudit", MOST_OBJECTS, MOST_SLOTS, MOST_ROOTS, advice)


def large_room() -> Room:
    """What gcheap takes."""
    return Room("gcheap", LARGE_OBJECTS, LARGE_SLOTS, LARGE_ROOTS)


class Counted:
    """What a trace or a snapshot has so far, `what` of the two it is; refuses what gcaudit, or another program with its own `room`,
    would refuse by its limits.

    What is for neither need not be `limited`.
    """

    def __init__(self, what: str, limited: bool = True, room: Optional[Room] = None) -> None:
        self._what = what
        self._limited = limited
        self._room = room or usual_room()
        self._types: Set[str] = set()
        self._roots: Set[str] = set()
        self.last_id = 0
        self.objects = 0
        self.slots = 0

    def _see_type(self, type_name: str) -> None:
        if type_name not in self._types:
            if len(self._types) >= MOST_TYPES and self._limited:
                raise self._too_many("%d types" % MOST_TYPES)
            self._types.add(type_name)

    def _see_object(self, type_name: str, slots: int) -> int:
        """Counts one object more; the answer is its id."""
        if type_name not in self._types:
            self._see_type(type_name)
        if self.objects >= self._room.objects and self._limited:
            raise self._too_many("%d live objects" % self._room.objects, self._room.advice)
        if self.slots + slots > self._room.slots and self._limited:
            raise self._too_many("%d live slots" % self._room.slots, self._room.advice)
        if self.last_id >= MOST_ID:
            raise TraceError("the %s would have an id above %d, which gcaudit doesn't take" % (self._what, MOST_ID))
        self.last_id += 1
        self.objects += 1
        self.slots += slots
        return self.last_id

    def _see_root(self, name: str) -> None:
        self._roots.add(name)
        if len(self._roots) > self._room.roots and self._limited:
            raise self._too_many("%d roots" % self._room.roots, self._room.advice)

    def roots(self) -> int:
        """How many roots there are."""
        return len(self._roots)

    def _too_many(self, what: str, advice: str = "") -> TraceError:
        return TraceError(
            "the %s would have more than %s, which %s doesn't take%s" % (self._what, what, self._room.program, advice)
        )

"""One trace for several dumps of a process: it has a collection for each dump, and an object keeps its id from dump to dump.

The trace of a single dump has a key for each object that a later dump knows again. Here an earlier trace is continued by what
is different in the trace of a later dump: objects that are new, slots that hold something else, and other roots. What died in
between isn't stored any more, so the next collection frees it. An assertion is made once, and holds until its object is freed.
"""
from array import array
from typing import Any, Dict, List, NamedTuple, Optional, Tuple

from ..graphs.path import MORE
from ..graphs.trace_heap import TraceHeap, heaps
from ..traces.limits import MOST_ID, MOST_OBJECTS, MOST_SLOTS
from ..traces.names import legal_name
from ..traces.trace_writer import TraceWriter
from ..traces.whole_file import Batch, WholeFile

_COPIED_AT_A_TIME = 1 << 20


class Slot(NamedTuple):
    """What a slot holds: an id, or 0 where it is empty."""

    to: int = 0
    label: str = ""
    weak: bool = False


_EMPTY = Slot()


class KeyedHeap(TraceHeap):
    """A heap with the keys of its objects and what is asserted of them."""

    def __init__(self) -> None:
        super().__init__()
        self.keys = array("Q")  # of each object that was ever allocated, as `ids`; 0 where it has none
        self.dead: Dict[int, None] = {}  # the ids that are asserted dead, in their order
        self.unshared: Dict[int, None] = {}
        self.limits: Dict[str, int] = {}

    @property
    def ids(self) -> array:
        return self._ids

    @property
    def roots(self) -> Dict[str, int]:
        return self._roots

    @property
    def owners(self) -> Dict[int, int]:
        """The owner of each ownee, by ids."""
        return self._owners

    def apply(self, event: Dict[str, Any]) -> None:
        super().apply(event)
        op = event["op"]
        if op == "alloc":
            self.keys.append(event.get("key", 0))
        elif op == "assert-dead":
            self.dead[event["id"]] = None
        elif op == "assert-unshared":
            self.unshared[event["id"]] = None
        elif op == "assert-instances":
            self.limits[event["type"]] = event["limit"]

    def place_of(self, number: int) -> int:
        """The place among `ids` of the object with this id."""
        return self._cell(number)

    def type_at(self, place: int) -> str:
        return self._types.texts[self._kinds[place]]

    def size_at(self, place: int) -> int:
        return self._sizes[place]

    def room_at(self, place: int) -> int:
        """How many slots an object has."""
        return self._first_slots[place + 1] - self._first_slots[place]

    def slots_at(self, place: int) -> List[Slot]:
        """All slots of an object, empty ones too."""
        texts = self._label_names.texts
        return [
            Slot(self._held[slot], texts[self._labels[slot]], bool(self._is_weak[slot]))
            for slot in range(self._first_slots[place], self._first_slots[place + 1])
        ]

    def live_places(self) -> List[int]:
        return [place for place, is_live in enumerate(self._is_live) if is_live]


class Continued(NamedTuple):
    """A trace that was continued: how many collections it has, and under which id it has each object of the later dump's trace."""

    collections: int
    ids: Dict[int, int]


def continue_trace(earlier: str, later: str, to: str) -> Optional[Continued]:
    """Writes the earlier trace, continued by that of a later dump. None where gcaudit would not take so many objects."""
    before, now = KeyedHeap(), KeyedHeap()
    collections = sum(1 for _ in heaps(earlier, heap=before))
    next(heaps(later, heap=now))
    whole = WholeFile(to)
    try:
        lines = Batch(whole.write)
        changes = _Changes(before, now, TraceWriter(lines.add))
        if not changes.fit():
            whole.give_up()
            return None
        _copy(earlier, whole)
        changes.write()
        lines.flush()
        whole.finish()
    except BaseException:
        whole.give_up()
        raise
    return Continued(collections + 1, dict(zip(now.ids, changes.ids)))


def _copy(earlier: str, whole: WholeFile) -> None:
    with open(earlier, encoding="utf-8", newline="\n") as file:
        text = file.read(_COPIED_AT_A_TIME)
        while text:
            whole.write(text)
            text = file.read(_COPIED_AT_A_TIME)


class _Changes:
    """What changed from a heap after a collection to that of a later dump before its collection."""

    def __init__(self, before: KeyedHeap, now: KeyedHeap, trace: TraceWriter) -> None:
        self._before = before
        self._now = now
        self._trace = trace
        self.ids = array("I", bytes(4 * len(now.ids)))  # of each object of the later dump in the continued trace
        self._old_places = self._known_again()
        trace.last_id = before.ids[-1] if before.ids else 0

    def _known_again(self) -> Dict[int, int]:
        """By their places in the later dump, the places of the objects that the earlier trace has."""
        before, now = self._before, self._now
        of_key = {before.keys[place]: place for place in before.live_places() if before.keys[place]}
        found: Dict[int, int] = {}
        for place, key in enumerate(now.keys):
            old = of_key.pop(key, None) if key else None
            # A runtime may give the number of an object that is gone to another one.
            if old is not None and before.type_at(old) == now.type_at(place):
                found[place] = old
        return found

    def fit(self) -> bool:
        """Whether gcaudit takes all that is live until the next collection: what is there already, and what is new."""
        before, now = self._before, self._now
        objects, slots = len(before.live_places()), sum(map(before.room_at, before.live_places()))
        for place in range(len(now.ids)):
            old, room = self._old_places.get(place), now.room_at(place)
            if old is None:
                objects, slots = objects + 1, slots + room
            elif room > before.room_at(old):
                objects, slots = objects + 1, slots + 2 * room  # for further slots
        return objects <= MOST_OBJECTS and slots <= MOST_SLOTS and self._trace.last_id + objects <= MOST_ID

    def write(self) -> None:
        self._write_objects()
        for place in range(len(self._now.ids)):
            self._write_contents(place)
        self._empty_gone_owners()
        self._write_roots()
        self._write_assertions()
        self._trace.collect()

    def _write_objects(self) -> None:
        before, now = self._before, self._now
        for place in range(len(now.ids)):
            old = self._old_places.get(place)
            self.ids[place] = (
                before.ids[old]
                if old is not None
                else self._trace.alloc(now.type_at(place), now.room_at(place), 0, now.size_at(place), now.keys[place])
            )

    def _id_of(self, number: int) -> int:
        """The id in the continued trace of an object of the later dump."""
        return self.ids[self._now.place_of(number)]

    def _write_contents(self, place: int) -> None:
        slots = [
            Slot(self._id_of(slot.to), slot.label, slot.weak) if slot.to else slot for slot in self._now.slots_at(place)
        ]
        while slots and slots[-1] == _EMPTY:
            slots.pop()
        number, old = self.ids[place], self._old_places.get(place)
        if old is None:
            self._write_slots(number, 0, [], slots)
            return
        self._write_known(number, old, slots)
        if self._now.size_at(place) != self._before.size_at(old):
            self._write_size(number, self._before.room_at(old), slots, self._now.size_at(place))

    def _write_known(self, number: int, old: int, slots: List[Slot]) -> None:
        """Writes what an object holds that the trace has already. Where it holds more than it has room for, its last slot leads to further ones."""
        was = self._before.slots_at(old)
        room = len(was)
        more, more_was = self._further(was)
        if not more and len(slots) <= room:
            self._write_slots(number, 0, was, slots)
            return
        own = room - 1
        if len(slots) - own > len(more_was):
            more, more_was = self._make_more(number, old, was, len(slots) - own)
        self._write_slots(number, 0, was[:own], slots[:own])
        self._write_slots(more, 0, more_was, slots[own:])

    def _further(self, was: List[Slot]) -> Tuple[int, List[Slot]]:
        """The object that has an object's further slots, and these; 0 where there is none."""
        if not was or was[-1].label != MORE or not was[-1].to:
            return 0, []
        return was[-1].to, self._before.slots_at(self._before.place_of(was[-1].to))

    def _make_more(self, number: int, old: int, was: List[Slot], needed: int) -> Tuple[int, List[Slot]]:
        """A new object for an object's further slots, which all are empty."""
        made = self._trace.alloc(legal_name("more of " + self._before.type_at(old)), 2 * needed)
        if was[-1].weak:
            self._trace.set_weak(number, len(was) - 1, False)
        self._trace.store(number, len(was) - 1, made, MORE)
        return made, [_EMPTY] * (2 * needed)

    def _write_slots(self, number: int, first: int, was: List[Slot], slots: List[Slot]) -> None:
        """Writes the slots that differ, from the first on."""
        for at in range(max(len(was), len(slots))):
            old = was[at] if at < len(was) else _EMPTY
            new = slots[at] if at < len(slots) else _EMPTY
            if new.weak != old.weak:
                self._trace.set_weak(number, first + at, new.weak)
            if (new.to, new.label) != (old.to, old.label) and (new.to or old.to):
                self._trace.store(number, first + at, new.to or None, new.label if new.to else "")

    def _write_size(self, number: int, room: int, slots: List[Slot], size: int) -> None:
        """Says the size that an object has by now, beside some slot of it that isn't weak."""
        for at in range(room - 1, -1, -1):
            if at >= len(slots) or not slots[at].weak:
                self._trace.resize(number, at, size)
                return

    def _empty_gone_owners(self) -> None:
        """An owner that is gone holds nothing; gcaudit would follow what it held until it frees it."""
        before, kept = self._before, set(self._old_places.values())
        live = set(before.live_places())
        for owner in sorted(set(before.owners.values())):
            place = before.place_of(owner)
            if place in live and place not in kept:
                self._write_slots(owner, 0, before.slots_at(place), [])

    def _write_roots(self) -> None:
        now = {name: self._id_of(number) for name, number in self._now.roots.items()}
        for name in self._before.roots:
            if name not in now:
                self._trace.root(name, None)
        for name, number in now.items():
            if self._before.roots.get(name) != number:
                self._trace.root(name, number)

    def _write_assertions(self) -> None:
        before, now = self._before, self._now
        for number in map(self._id_of, now.dead):
            if number not in before.dead:
                self._trace.assert_dead(number)
        for name, limit in now.limits.items():
            if before.limits.get(name) != limit:
                self._trace.assert_instances(name, limit)
        for number in map(self._id_of, now.unshared):
            if number not in before.unshared:
                self._trace.assert_unshared(number)
        for ownee, owner in now.owners.items():
            self._write_owned(self._id_of(ownee), now.place_of(owner))

    def _write_owned(self, ownee: int, owner: int) -> None:
        """Where the owner is gone, an object without a key stands for it, unless the trace has the owner itself."""
        if not self._now.keys[owner] and ownee in self._before.owners:
            return
        if self._before.owners.get(ownee) != self.ids[owner]:
            self._trace.assert_owned_by(self.ids[owner], ownee)

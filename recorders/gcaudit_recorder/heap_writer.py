"""The trace of a program's heap: what changed from one collection to the next."""
import weakref
from typing import Any, Dict, Iterable, List, NamedTuple, Set, Tuple

from gcaudit_trace import TraceWriter, legal_name
from gcaudit_trace.graphs.path import MORE
from gcaudit_trace.traces.limits import MOST_INSTANCES
from gcaudit_trace.traces.names import UniqueNames

from .assertions import Assertion, Hold
from .holders import Link
from .unreached import BESIDE, NOT_LOOKED_FOR, Beside
from .walk import EMPTY, WEAK_LABEL, Labels, Traced, Walk

_REGION_THREAD = 1


class State(NamedTuple):
    """What a writer hands to one in another process."""

    known: Dict[str, Any]
    labels: Labels
    written_roots: Dict[str, int]
    freed_next: List[int]
    trace: Any
    numbers: Dict[int, int]  # by the serial number of a hold, the id of its object


class HeapWriter:
    """Writes with a trace writer what walks find; keeps what the trace has."""

    def __init__(self, trace: TraceWriter) -> None:
        self._trace = trace
        self.labels = Labels()
        self.known = Traced()
        self._written_roots: Dict[str, int] = {}
        self._freed_next: List[int] = []  # the slots of each object that the next collection frees

    def write(
        self, walk: Walk, beside: Beside, assertions: List[Assertion], region_ended: bool, asserted_type: str
    ) -> None:
        """Writes what changed since the last collection, what is asserted, and a collection.

        `asserted_type` is the type of some object of which something was asserted; empty where there was none.
        """
        self._write_objects(walk, assertions, region_ended)
        self._write_contents(walk)
        self._write_roots(walk, beside)
        self._write_assertions(walk, assertions)
        if asserted_type and not self._trace.asserts:
            # What was asserted holds, since its objects are gone. It is to be seen that something was.
            self._trace.assert_instances(asserted_type, MOST_INSTANCES)
        self._trace.collect()
        self._keep_traced(walk)
        self._freed_next = [1] * sum(map(len, (chain for _, chain in beside.chains))) + [len(beside.rest)] * bool(
            beside.rest
        )

    def state(self, holds: Iterable[Hold]) -> "State":
        """What another writer needs to go on with the trace: an object is the same one there where one of the holds says so."""
        known = self.known
        places = {hold.serial: known.place_of.get(id(hold.get())) for hold in holds}
        kept = {serial: known.numbers[place] for serial, place in places.items() if place is not None}
        without_objects: Dict[str, Any] = {**vars(known), "place_of": {}, "weak": [], "held_by": {}}
        return State(without_objects, self.labels, self._written_roots, self._freed_next, self._trace.state(), kept)

    def go_on(self, state: "State", holds: Iterable[Hold]) -> None:
        """Goes on where another process stopped.

        An address may have been used again since, so an object is known again only by a hold of the recorder's, which
        refers to the object itself. All others are new ones.
        """
        known = self.known = Traced()
        vars(known).update(state.known)
        known.weak = [None] * len(known)
        self.labels, self._written_roots, self._freed_next = state.labels, state.written_roots, state.freed_next
        self._trace.go_on(state.trace)
        places = {number: place for place, number in enumerate(known.numbers) if number}
        for hold in holds:
            obj, place = hold.get(), places.get(state.numbers.get(hold.serial, 0))
            if obj is not None and place is not None:
                known.place_of[id(obj)] = place
                if hold.holds_itself():
                    known.held_by.setdefault(place, set()).add(hold.serial)
                else:
                    known.weak[place] = weakref.ref(obj)

    def own(self) -> Set[int]:
        """The addresses of what it keeps from one collection to the next."""
        return set(map(id, vars(self.known).values()))

    def _write_objects(self, walk: Walk, assertions: List[Assertion], region_ended: bool) -> None:
        """New objects, those of a region first: between its start and its end, on a thread of their own."""
        numbers = walk.now.numbers
        if region_ended:
            self._trace.start_region(_REGION_THREAD)
            for one in assertions:
                place = walk.now.place_of.get(id(one.target.get())) if one.in_region else None
                if place is not None and not numbers[place]:
                    self._alloc(walk, place, _REGION_THREAD)
                    one.written = (numbers[place],)
            self._trace.assert_alldead(_REGION_THREAD)
        for place, number in enumerate(numbers):
            if not number:
                self._alloc(walk, place, 0)

    def _alloc(self, walk: Walk, place: int, thread: int) -> None:
        """What can grow has some slots to spare, the last of which can lead to further ones."""
        now = walk.now
        count = now.starts[place + 1] - now.starts[place]
        room = now.rooms[place] = count + count // 4 + 2 if walk.shapes[place].grows else count
        now.numbers[place] = self._trace.alloc(now.names[place], room, thread, walk.sizes[place])

    def _write_contents(self, walk: Walk) -> None:
        walk.find_proxied()
        now, known = walk.now, self.known
        old_places = {number: place for place, number in enumerate(known.numbers) if number}
        endings = list(map(self._trace.ending, self.labels.texts))
        start = 0
        for place, number in enumerate(now.numbers):
            first, start = start, now.starts[place + 1]
            old = old_places.get(number)
            if old is not None:
                self._write_changes(now, place, old)
            elif number in now.proxied:
                self._write_slots(now, place, [], now.slots(place))
            elif first != start:  # a new object has room for all that it holds
                self._trace.fill_by_endings(number, now.fillings(first, start, endings))
        for place in walk.gone():
            if known.numbers[place] in known.owns:  # gcaudit traces from it, until this collection frees it
                self._write_slots(known, place, known.slots(place), [])

    def _write_changes(self, now: Traced, place: int, old: int) -> None:
        """Writes what an object holds now and didn't hold at the last collection."""
        number, known = now.numbers[place], self.known
        more = known.more.get(number)
        if more is not None:
            now.more[number] = more
        if number in known.owns:
            now.owns.add(number)
        was, slots = known.slots(old), now.slots(place)
        if was != slots:
            self._write_slots(now, place, was, slots)
        if now.sizes[place] != known.sizes[old]:
            self._write_size(now, place, slots)

    def _write_size(self, now: Traced, place: int, slots: List[Tuple[int, int]]) -> None:
        """Says the size that an object has by now, beside some slot of it that isn't weak."""
        for slot in range(now.rooms[place] - 1, -1, -1):
            if slot >= len(slots) or slots[slot][1] != WEAK_LABEL:
                self._trace.resize(now.numbers[place], slot, now.sizes[place])
                return

    def _write_slots(
        self, traced: Traced, place: int, was: List[Tuple[int, int]], slots: List[Tuple[int, int]]
    ) -> None:
        """Writes the slots that differ from what the trace has."""
        number, room = traced.numbers[place], traced.rooms[place]
        more, more_room = traced.more.get(number, (0, 0))
        own = room
        if more or len(slots) > room:
            own = room - 1
            if len(slots) - own > more_room:
                more, more_room = self._make_more(traced, place, was, own, 2 * (len(slots) - own))
                was = was[:own]
        for at in range(max(len(slots), len(was))):
            to, label = slots[at] if at < len(slots) else EMPTY
            old_to, old_label = was[at] if at < len(was) else EMPTY
            holder, slot = (number, at) if at < own else (more, at - own)
            if (label == WEAK_LABEL) != (old_label == WEAK_LABEL):
                self._trace.set_weak(holder, slot, label == WEAK_LABEL)
            if (to, label) != (old_to, old_label) and (to or old_to):
                self._trace.store(holder, slot, to or None, self.labels.text(label) if to else "")

    def _make_more(
        self, traced: Traced, place: int, was: List[Tuple[int, int]], own: int, room: int
    ) -> Tuple[int, int]:
        """Gives an object further slots: they are those of a second object, which its last slot holds."""
        number = traced.numbers[place]
        if number in traced.more:
            self._freed_next.append(traced.more[number][1])
        made = traced.more[number] = self._trace.alloc(legal_name("more of " + traced.names[place]), room), room
        if len(was) > own and was[own][1] == WEAK_LABEL:
            self._trace.set_weak(number, own, False)
        self._trace.store(number, own, made[0], MORE)
        return made

    def _write_roots(self, walk: Walk, beside: Beside) -> None:
        numbers, names = walk.now.numbers, UniqueNames()
        now = {names.name_for(name): numbers[walk.now.place_of[id(obj)]] for name, obj in walk.roots}
        for place, chain in beside.chains:
            now[names.name_for(BESIDE)] = self._write_chain(chain, numbers[place])
        if beside.rest:
            now[names.name_for(BESIDE)] = self._write_holder([numbers[place] for place in beside.rest])
        for name in self._written_roots:
            if name not in now:
                self._trace.root(name, None)
        for name, number in now.items():
            if self._written_roots.get(name) != number:
                self._trace.root(name, number)
        self._written_roots = now

    def _write_chain(self, chain: List[Link], held: int) -> int:
        """Objects that stand for the holders of a chain until the next collection. The answer is the first."""
        for link in reversed(chain):
            number = self._trace.alloc(legal_name(link.name), 1)
            self._trace.store(number, 0, held, link.label)
            held = number
        return held

    def _write_holder(self, held: List[int]) -> int:
        """One object that stands for all holders that were not looked for. The answer is its id."""
        number = self._trace.alloc(NOT_LOOKED_FOR, len(held))
        for slot, one in enumerate(held):
            self._trace.store(number, slot, one, "(held)")
        return number

    def _write_assertions(self, walk: Walk, assertions: List[Assertion]) -> None:
        for one in assertions:
            place = walk.now.place_of.get(id(one.target.get()))
            if place is None:
                continue
            number = walk.now.numbers[place]
            if one.kind == "owned":
                self._write_owned(one, number, walk)
            elif one.written != (number,):
                one.written = (number,)
                if one.kind == "dead":
                    self._trace.assert_dead(number)
                else:
                    self._trace.assert_unshared(number)

    def _write_owned(self, one: Assertion, ownee: int, walk: Walk) -> None:
        """The owner may have died since; then an object without contents stands for it until this collection."""
        owner = None if one.owner is None else one.owner.get()
        if owner is not None:
            number = walk.now.numbers[walk.now.place_of[id(owner)]]
            walk.now.owns.add(number)
        elif one.written is not None and one.written[1] == ownee:
            return
        else:
            number = self._trace.alloc(one.owner_type, 0)
            self._freed_next.append(0)
        if one.written != (number, ownee):
            one.written = (number, ownee)
            self._trace.assert_owned_by(number, ownee)

    def _keep_traced(self, walk: Walk) -> None:
        """After a collection the trace has exactly the traced objects; what it doesn't have is forgotten here too."""
        known, now = self.known, walk.now
        for place in walk.gone():
            self._count_freed(known, place)
        for place in walk.untraced():
            self._count_freed(now, place)
        walk.forget_untraced()
        for slots in self._freed_next:
            self._trace.freed(1, slots)
        self.known = now

    def _count_freed(self, traced: Traced, place: int) -> None:
        more = traced.more.get(traced.numbers[place])
        self._trace.freed(1 if more is None else 2, traced.rooms[place] + (more[1] if more else 0))

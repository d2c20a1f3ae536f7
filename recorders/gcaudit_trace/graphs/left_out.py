"""Left-out objects of a dump, and how references go on through them.

Who held a left-out object holds what that one held. Left-out objects that lead to one another in a circle count as one
(a strongly connected part). What leads on to one thing alone is passed over. What leads on to several things is a joint:
all that lead on to the same things are one joint, and it stays in the trace where more than one reference, or a root, leads
to it; else it is passed over too. So what is kept is reached exactly by what reached it before.

An object is known by a number here, its code: that of a kept object is its number in the trace, from 1 on; those of
left-out objects are -1, -2 and so on.
"""
from array import array
from itertools import accumulate
from typing import AbstractSet, Callable, Dict, Iterable, Iterator, List, NamedTuple, Sequence, Tuple

_NOTHING = 0  # as a code: nothing that is kept is reached
_MOST_EDGES_KNOWN = 1 << 18  # so many references are kept in mind for the labels of what holds them
_CLOSED = 0xFFFFFFFF  # in place of the number in which an object was met


class Joint(NamedTuple):
    """What stands for left-out objects that lead on to the same things."""

    outs: Tuple[int, ...]  # codes of kept objects, and of other joints: -1 for the first, -2 and so on
    place: int  # of the first of the left-out objects


class Staying(NamedTuple):
    """A joint that stays in the trace."""

    place: int  # of one of the left-out objects that it stands for
    count: int  # type: ignore[assignment]  # how many these are
    contents: List[Tuple[str, int, bool]]  # label, number in the trace, and that it isn't weak


class LeftOut:
    """The left-out objects that may hold something. First it is said how many they are, then all references are told, then it is settled.

    `label_of` answers by the place of a left-out object, of its reference and the code of what is held there the label of that
    reference. `unshared` has the codes of kept objects of which the references count: they stay as many as they were.
    """

    def __init__(self, label_of: Callable[[int, int, int], str], unshared: AbstractSet[int] = frozenset()) -> None:
        self._label_of = label_of
        self._unshared = unshared
        # At the place of each object, counted from 0:
        self._counts = array("I")  # how many references it holds
        self._led_to = array("I")  # how many lead to it from kept objects, and two for each root
        self._starts = array("Q")  # where its references begin among `_held`
        self._resolved = array("i")  # what it leads to: a kept object, a joint, or nothing
        self._passed = array("I")  # how many left-out objects lie before that, itself counted
        self._held = array("i")  # the codes of what all of them hold
        self._joints: List[Joint] = []
        self._joint_counts: List[int] = []  # how many objects each stands for
        self._edges: Dict[int, Dict[int, int]] = {}  # by the place of an object, what `_edges_of` answered of it
        self._inner_labels: Dict[Tuple[int, int], str] = {}  # what `_inner_label` answered
        self._edges_known = 0  # how many references are in there
        self._numbers: Dict[int, int] = {}  # the number in the trace of each joint that stays, by its code

    def __len__(self) -> int:
        return len(self._counts)

    def add(self, count: int) -> None:
        """There are so many: their codes are -1, -2 and so on."""
        self._counts = array("I", bytes(4 * count))
        self._led_to = array("I", bytes(4 * count))

    def hold(self, held: Iterable[List[int]]) -> None:
        """What each of the left-out objects holds, from the first on."""
        counts, extend = self._counts, self._held.fromlist
        for place, codes in enumerate(held):
            counts[place] = len(codes)
            extend(codes)

    def take(self, references: Iterable[Tuple[int, int]]) -> None:
        """References by the codes of who holds and what is held; left-out holders from the first on."""
        counts, led_to, add = self._counts, self._led_to, self._held.append
        for holder, held in references:
            if holder < 0:
                counts[-1 - holder] += 1
                add(held)
            elif held < 0:
                led_to[-1 - held] += 1

    def take_kept(self, held: Iterable[int]) -> None:
        """The codes of what kept objects hold."""
        led_to = self._led_to
        for code in held:
            if code < 0:
                led_to[~code] += 1

    def held(self) -> Tuple[Sequence[int], Sequence[int]]:
        """Where the references of each begin, and the codes of what all of them hold."""
        if not self._starts:
            self._starts = array("Q", accumulate(self._counts, initial=0))
        return self._starts, self._held

    def take_root(self, held: int) -> None:
        """A root leads there; a joint there stays."""
        if held < 0:
            self._led_to[-1 - held] += 2

    def settle(self, kept: int, tell: Callable[[], None]) -> int:
        """Decides which joints stay; they have the numbers in the trace after those of the kept objects. The answer is how many.

        This may take some seconds, and calls `tell` now and then.
        """
        self.held()
        self._resolve(tell)
        led_to_joints = [0] * len(self._joints)
        for code, count in zip(self._resolved, self._led_to):
            if code < 0:
                led_to_joints[-1 - code] += count
        for place in range(len(self._joints) - 1, -1, -1):  # a joint comes behind all that it leads to
            if led_to_joints[place]:
                for out in self._joints[place].outs:
                    if out < 0:
                        led_to_joints[-1 - out] += 1
        stay = [-1 - place for place, count in enumerate(led_to_joints) if count > 1]
        self._numbers = {code: number for number, code in enumerate(stay, kept + 1)}
        return len(stay)

    def staying(self) -> Iterator[Staying]:
        """The joints that stay, in the order of their numbers."""
        for code in self._numbers:
            joint = self._joints[-1 - code]
            count = self._joint_counts[-1 - code]
            yield Staying(joint.place, count, list(self._contents(joint, count == 1)))

    def stand_for(self) -> int:
        """How many left-out objects the joints that stay stand for."""
        return sum(self._joint_counts[-1 - code] for code in self._numbers)

    def numbers_of(self, code: int) -> List[int]:
        """The numbers in the trace of a kept object, or of what a left-out one leads to."""
        return [number for _, number, _ in self.through(code, "")]

    def through(self, code: int, label: str) -> Iterator[Tuple[str, int, bool]]:
        """What a slot with this label leads to, as slots: label, number in the trace, and that it isn't weak."""
        if code > 0:
            yield label, code, False
            return
        place = -1 - code
        to, passed = self._resolved[place], self._passed[place]
        if to > 0:
            yield self._label(label, passed, place, to), to, False
        elif to in self._numbers:
            yield self._label(label, passed, place, to), self._numbers[to], False
        elif to < 0:
            joint = self._joints[-1 - to]
            for out in joint.outs:
                for number, further in self._beyond(out):
                    yield self._label(label, passed + 1 + further, joint.place, out), number, False

    def _beyond(self, out: int) -> Iterator[Tuple[int, int]]:
        """What a joint's reference leads to: numbers in the trace, each with how many joints were passed over."""
        work = [(out, 0)]
        while work:
            code, passed = work.pop()
            if code > 0:
                yield code, passed
            elif code in self._numbers:
                yield self._numbers[code], passed
            else:
                work += [(further, passed + 1) for further in reversed(self._joints[-1 - code].outs)]

    def _label(self, label: str, passed: int, place: int, to: int) -> str:
        """The label of a slot with what was passed over: where it is one object, the label of its own reference."""
        if not passed:
            return label
        inner = self._inner_label(place, to) if passed == 1 else ""
        return "%s %s" % (label, inner) if inner else "%s (over %d left out)" % (label, passed)

    def _inner_label(self, place: int, to: int) -> str:
        """The label under which a left-out object holds this itself; empty where it doesn't."""
        known = self._inner_labels.get((place, to))
        if known is None:
            if len(self._inner_labels) > _MOST_EDGES_KNOWN:
                self._inner_labels.clear()
            edge = self._edges_of(place).get(to)
            known = "" if edge is None else self._label_of(place, edge, self._held[edge])
            self._inner_labels[place, to] = known
        return known

    def _edges_of(self, place: int) -> Dict[int, int]:
        """By what a left-out object holds itself, kept objects and joints, its first reference to that."""
        found = self._edges.get(place)
        if found is None:
            if self._edges_known > _MOST_EDGES_KNOWN:
                self._edges.clear()
                self._edges_known = 0
            found = self._edges[place] = {}
            for edge in range(self._starts[place], self._starts[place + 1]):
                held = self._held[edge]
                if held > 0:
                    found.setdefault(held, edge)
                elif self._resolved[-1 - held] < 0 and not self._passed[-1 - held]:
                    found.setdefault(self._resolved[-1 - held], edge)
            self._edges_known += len(found) + 1
        return found

    def _contents(self, joint: Joint, is_one: bool) -> Iterator[Tuple[str, int, bool]]:
        for out in joint.outs:
            label = self._inner_label(joint.place, out) if is_one else ""
            for number, further in self._beyond(out):
                yield (
                    "%s (over %d left out)" % (label, further) if further and label else label or "(held)"
                ), number, False

    def _resolve(self, tell: Callable[[], None]) -> None:
        """Finds what each leads to. A strongly connected part comes when all that it leads to is resolved (Tarjan)."""
        size, starts, held = len(self._counts), self._starts, self._held
        self._resolved, self._passed = array("i", bytes(4 * size)), array("I", bytes(4 * size))
        seen, low = array("I", bytes(4 * size)), array("I", bytes(4 * size))
        known: Dict[Tuple[int, ...], int] = {}
        count, opened = 0, array("I")
        for first in range(size):
            if seen[first]:
                continue
            work = [(first, starts[first])]
            count += 1
            seen[first] = low[first] = count
            opened.append(first)
            while work:
                place, edge = work.pop()
                end, least = starts[place + 1], low[place]
                while edge < end:
                    code = held[edge]
                    edge += 1
                    if code > 0:
                        continue
                    to = ~code
                    number = seen[to]
                    if not number:
                        work.append((place, edge))
                        count += 1
                        seen[to] = low[to] = count
                        opened.append(to)
                        work.append((to, starts[to]))
                        if not count & 0xFFFF:
                            tell()
                        break
                    if number < least:
                        least = number
                else:
                    low[place] = least
                    if least == seen[place]:
                        self._resolve_part(self._closed(opened, place), seen, known)
                    elif work and least < low[work[-1][0]]:
                        low[work[-1][0]] = least
                    continue
                low[place] = least

    @staticmethod
    def _closed(opened: array, first: int) -> Sequence[int]:
        """Takes a whole part from what is open."""
        part = [opened.pop()]
        while part[-1] != first:
            part.append(opened.pop())
        return part

    def _resolve_part(self, part: Sequence[int], seen: array, known: Dict[Tuple[int, ...], int]) -> None:
        starts, held, resolved, unshared = self._starts, self._held, self._resolved, self._unshared
        outs: Dict[int, int] = {}  # with a reference by which each is reached
        again: List[int] = []  # references more to what must not be shared
        for place in part:
            for edge in range(starts[place], starts[place + 1]):
                code = held[edge]
                if code < 0:
                    code = resolved[~code]  # nothing too, where it is of the part itself
                    if not code:
                        continue
                elif code in unshared and code in outs:
                    again.append(code)
                if code not in outs:
                    outs[code] = edge
        is_exact = bool(unshared) and any(code in unshared for code in outs)
        passed = 0
        if not outs:
            code = _NOTHING
        elif len(outs) == 1 and not is_exact:
            code, edge = next(iter(outs.items()))
            passed = len(part) + (self._passed[~held[edge]] if held[edge] < 0 else 0)
        else:
            code = self._joint(tuple(sorted(outs)) + tuple(again), part, {} if is_exact else known)
        for place in part:
            seen[place] = _CLOSED
            resolved[place] = code
            self._passed[place] = passed

    def _joint(self, outs: Tuple[int, ...], part: Sequence[int], known: Dict[Tuple[int, ...], int]) -> int:
        """The code of the joint that leads to these."""
        code = known.get(outs)
        if code is None:
            self._joints.append(Joint(outs, part[-1]))
            self._joint_counts.append(0)
            code = known[outs] = -len(self._joints)
        self._joint_counts[-1 - code] += len(part)
        return code

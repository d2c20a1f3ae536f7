"""What increased from one heap to the next, by type, and by what holds it."""
from array import array
from typing import Dict, Iterable, List, NamedTuple, Sequence, Tuple

from ..graphs.dominators import kept_alone, kept_by_group
from ..graphs.graph import Graph
from ..graphs.paths import Holder, Tree, is_between

SHOWN = 20
# Of objects that don't become more, a round: a number in a text has a digit more, and the table of a dict is made larger once.
_FEW_BYTES, _MANY_BYTES = 64, 65536
BYTES, OBJECTS = "bytes", "objects"

# A type, and what holds its objects by name.
Key = Tuple[str, Holder]
# By type and holder: how many objects there are, and their bytes.
Counts = Dict[Key, List[int]]
# By type and holder how many objects these keep alive alone, and their bytes.
KeptAlone = Dict[Key, Tuple[int, int]]


class Grown(NamedTuple):
    """Objects of a type with one holder: their number and bytes in each heap, and how much each increased on average."""

    type_name: str
    holder: Holder
    numbers: Tuple[int, ...]
    sizes: Tuple[int, ...]
    more: float
    more_bytes: float


class Growth:
    """Compares heaps that follow on one another; `step` is what lies between two of them, as a round.

    At most `top` lines are shown, those that grew most first, `by` BYTES or OBJECTS; without sizes by objects. Rounds of the same
    work are `alike`: then what has warmed up isn't shown.
    """

    def __init__(
        self,
        heaps: Sequence[Counts],
        step: str,
        kept: Sequence[KeptAlone] = (),
        by: str = BYTES,
        top: int = SHOWN,
        alike: bool = False,
    ) -> None:
        self._heaps = list(heaps)
        self._step = step
        self._kept = list(kept)
        self._by = by
        self._top = top
        self._alike = alike

    def grown(self) -> List[Grown]:
        """What has more objects or bytes from heap to heap, and never became less in these.

        Where rounds are alike, what no longer grows in the second half of the heaps has warmed up. Bytes alone, without more objects,
        count only where they grow steadily then: tables and texts become a little larger now and then, whatever a program does.

        What is held by objects that don't grow comes first: the others grow since their holders do. Then most bytes first. By
        objects most of these come first, and lists and what else only stands in between behind the program's own objects.
        """
        found = []
        steps = max(len(self._heaps) - 1, 1)
        for key in {key for heap in self._heaps for key in heap}:
            counts = [heap.get(key, (0, 0)) for heap in self._heaps]
            numbers, sizes = tuple(one[0] for one in counts), tuple(one[1] for one in counts)
            if self._grow(numbers, sizes):
                more, more_bytes = (numbers[-1] - numbers[0]) / steps, (sizes[-1] - sizes[0]) / steps
                found.append(Grown(key[0], key[1], numbers, sizes, more, more_bytes))
        grown_types = {one.type_name for one in found if one.more > 0}

        def order(one: Grown) -> Tuple:
            amount: Tuple = (-one.more_bytes, is_between(one.type_name), -one.more)
            if self._by == OBJECTS:
                amount = is_between(one.type_name), -one.more, -one.more_bytes
            return (one.holder.type_name in grown_types, *amount, one.type_name, one.holder)

        return sorted(found, key=order)

    def _grow(self, numbers: Sequence[int], sizes: Sequence[int]) -> bool:
        if not self._alike:
            return _grows(numbers) or _grows(sizes)
        return _grows_late(numbers) or _grows_late(sizes) and _grows_steadily(sizes)

    def __str__(self) -> str:
        found = self.grown()
        grown_types = {one.type_name for one in found if one.more > 0}
        lines = []
        for one in found[: self._top]:
            indent = "  " if one.holder.type_name in grown_types else ""
            lines.append(indent + self._line(one))
            if not indent and self._kept and one.more > 0:
                lines.append("    its objects keep %s more alone a %s%s" % self._kept_more((one.type_name, one.holder)))
        if len(found) > self._top:
            lines.append("and %d more lines" % (len(found) - self._top))
        return "\n".join(lines) or "nothing grew"

    def _line(self, one: Grown) -> str:
        if one.more <= 0:
            numbers = "%s object%s" % (_number(one.numbers[-1]), "" if one.numbers[-1] == 1 else "s")
            sizes = " -> ".join(map(_number, one.sizes))
            return "+%s bytes of %s a %s, held by %s (%s, %s bytes)" % (
                _number(one.more_bytes),
                one.type_name,
                self._step,
                one.holder.name,
                numbers,
                sizes,
            )
        size = ", %s bytes" % _number(one.more_bytes) if one.more_bytes > 0 else ""
        numbers = " -> ".join(map(str, one.numbers))
        return "+%s %s a %s%s, held by %s (%s)" % (
            _number(one.more),
            one.type_name,
            self._step,
            size,
            one.holder.name,
            numbers,
        )

    def _kept_more(self, key: Key) -> Tuple[str, str, str]:
        first, last = (kept.get(key, (0, 0)) for kept in (self._kept[0], self._kept[-1]))
        steps = max(len(self._kept) - 1, 1)
        objects, size = ((after - before) / steps for before, after in zip(first, last))
        return _number(objects) + " objects", self._step, ", %s bytes" % _number(size) if size else ""


def _grows(numbers: Sequence[int]) -> bool:
    """Whether the last is more than the first, and none less than the one before."""
    return numbers[-1] > numbers[0] and all(before <= after for before, after in zip(numbers, numbers[1:]))


def _grows_late(numbers: Sequence[int]) -> bool:
    """Whether they grow in the second half too."""
    return _grows(numbers) and numbers[-1] > numbers[(len(numbers) - 1) // 2]


def _grows_steadily(sizes: Sequence[int]) -> bool:
    """Whether bytes become more in most of the steps, or many of them at once, as where a buffer is doubled."""
    steps = [after - before for before, after in zip(sizes, sizes[1:])]
    average = sum(steps) / len(steps)
    return average >= _FEW_BYTES and (2 * sum(step > 0 for step in steps) > len(steps) or average >= _MANY_BYTES)


def _number(value: float) -> str:
    return "{:,}".format(int(value)) if value == int(value) else "{:,.1f}".format(value)


def measured(graph: Graph) -> Tuple[Counts, KeptAlone]:
    """The objects of a graph by type and holder, and what those of each keep alive alone."""
    tree = Tree(graph)
    holders, names = tree.holders_by_name()
    places: Dict[Tuple[int, int], int] = {}
    groups = array("I", bytes(4 * len(graph)))
    counts: List[List[int]] = []
    kinds, sizes = graph.kinds, graph.sizes
    for node in tree.order:
        key = kinds[node], holders[node]
        place = places.get(key)
        if place is None:
            place = places[key] = len(counts)
            counts.append([0, 0])
        groups[node] = place
        one = counts[place]
        one[0] += 1
        if sizes is not None:
            one[1] += sizes[node]
    del tree, holders
    kept = kept_by_group(kept_alone(graph), groups, len(counts))
    found: Counts = {}
    alone: KeptAlone = {}
    for (kind, holder), place in places.items():
        name = graph.type_names[kind], names[holder]
        before, kept_before = found.setdefault(name, [0, 0]), alone.get(name, (0, 0))
        before[0] += counts[place][0]
        before[1] += counts[place][1]
        alone[name] = kept_before[0] + kept[place][0], kept_before[1] + kept[place][1]
    return found, alone


def growth_of(graphs: Iterable[Graph], step: str, by: str = BYTES, top: int = SHOWN) -> Growth:
    """What increased from graph to graph. Each is asked for when the one before was measured."""
    heaps: List[Counts] = []
    kept: List[KeptAlone] = []
    for graph in graphs:
        counts, alone = measured(graph)
        heaps.append(counts)
        kept.append(alone)
    return Growth(heaps, step, kept, by, top)

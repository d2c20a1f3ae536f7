"""Why objects are alive to which no root of a trace leads: they wait for their finalizers, or the runtime holds them in its own memory."""
import json
from collections import deque
from typing import Dict, Iterable, List, Set, Tuple

from ..dumps.marks import Marked
from .graph import Graph
from .trace_heap import heaps

_WAITS = "(waits for its finalizer)"
_ALIVE = "(alive, and no root of the dump leads to it)"


class Unreached:
    """Objects that must be dead, that the runtime's own collector left alive, and to which no root of the trace leads."""

    def __init__(self, trace: str, marked: Marked, numbers: Set[int]) -> None:
        self._trace = trace
        self._heap = next(heaps(trace))
        self._marked = marked
        self._left = set(numbers)
        self.roots: List[Tuple[str, int]] = []  # that tell why these objects are alive

    def explain(self) -> None:
        """Finds roots for them. What is held softly alone may stay."""
        reached = set(self._heap.graph().numbers)
        for why, origin in self._origins(self._marked.waiting, reached).items():
            self.roots.append((_WAITS, origin))
            self._left.discard(why)
        self._left -= set(self._origins(self._marked.soft, set()))
        self._left -= self._marked.lenient
        if self._left:
            holders = _holders_besides(self._trace, reached)
            self.roots += [(_ALIVE, _first_holder(number, holders)) for number in sorted(self._left)]

    def _origins(self, starts: Iterable[int], reached: Set[int]) -> Dict[int, int]:
        """Which of them are reached from the starts that aren't `reached` themselves, each with such a start."""
        names = []
        for place, number in enumerate(sorted(set(starts) - reached)):
            names.append("start %d of gcaudit" % place)
            self._heap.apply({"op": "root", "name": names[-1], "to": number})
        graph = self._heap.graph()
        of_name = dict(graph.roots)
        found = _origin_of_each(graph, [of_name[name] for name in names])
        for name in names:
            self._heap.apply({"op": "root", "name": name, "to": None})
        nodes = {number: graph.node_of(number) for number in self._left}
        return {
            number: graph.numbers[found[node]] for number, node in nodes.items() if node is not None and node in found
        }


def _holders_besides(trace: str, reached: Set[int]) -> Dict[int, List[int]]:
    """Of each object that is held by others which aren't reached, these others."""
    holders: Dict[int, List[int]] = {}
    weak: Set[Tuple[int, int]] = set()
    with open(trace, "rb") as lines:
        for line in lines:
            if line.startswith((b'{"op":"store"', b'{"op":"set-weak"')):
                event = json.loads(line)
                if event["at"] in reached:
                    continue
                slot = (event["at"], event["slot"])
                if event["op"] == "set-weak":
                    weak.add(slot)
                elif slot not in weak:
                    holders.setdefault(event["to"], []).append(event["at"])
    return holders


def _first_holder(number: int, holders: Dict[int, List[int]]) -> int:
    """The first object of the longest of the shortest chains that hold this one: mostly one that nothing holds."""
    seen, work, last = {number}, deque([number]), number
    while work:
        last = work.popleft()
        for holder in holders.get(last, ()):
            if holder not in seen:
                seen.add(holder)
                work.append(holder)
    return last


def _origin_of_each(graph: Graph, starts: Iterable[int]) -> Dict[int, int]:
    """For each node that is reached from the starts one of these."""
    origin = {start: start for start in starts}
    work = deque(origin)
    while work:
        node = work.popleft()
        for to in graph.held_by(node):
            if to not in origin:
                origin[to] = origin[node]
                work.append(to)
    return origin

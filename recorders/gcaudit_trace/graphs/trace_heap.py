"""The heap that a trace describes, at each of its collections."""
import json
from array import array
from bisect import bisect_left
from typing import Any, Callable, Dict, Iterator, Optional

from ..errors import TraceError
from .graph import Graph, Names

_NOWHERE = 0xFFFFFFFF


class TraceHeap:
    """The heap that a trace describes, operation by operation."""

    def __init__(self) -> None:
        # Of each object that was ever allocated, in the order of ids:
        self._ids = array("I")
        self._kinds = array("I")
        self._sizes = array("Q")
        self._first_slots = array("Q", [0])
        self._is_live = bytearray()
        # Of each slot:
        self._held = array("I")  # an id, or 0
        self._labels = array("I")
        self._is_weak = bytearray()
        self._types = Names()
        self._label_names = Names()
        self._label_names.place("")
        self._roots: Dict[str, int] = {}
        self._owners: Dict[int, int] = {}  # by ownee, both by id
        self._has_sizes = False

    def _cell(self, number: int) -> int:
        """The place of the object with this id."""
        ids = self._ids
        if number <= len(ids) and ids[number - 1] == number:
            return number - 1
        place = bisect_left(ids, number)
        if place == len(ids) or ids[place] != number:
            raise KeyError(number)
        return place

    def apply(self, event: Dict[str, Any]) -> None:
        """Takes an operation other than a collection."""
        op = event["op"]
        if op == "store":
            slot = self._slot(event)
            self._held[slot] = event["to"] or 0
            self._labels[slot] = self._label_names.place(event.get("label") or "")
        elif op == "alloc":
            self._ids.append(event["id"])
            self._kinds.append(self._types.place(event["type"]))
            size = event.get("bytes")
            self._sizes.append(size if isinstance(size, int) and size >= 0 else 0)
            self._has_sizes = self._has_sizes or size is not None
            slots = event.get("slots", 0)
            self._first_slots.append(self._first_slots[-1] + slots)
            self._held.frombytes(bytes(4 * slots))
            self._labels.frombytes(bytes(4 * slots))
            self._is_weak.extend(bytes(slots))
            self._is_live.append(1)
        elif op == "set-weak":
            self._is_weak[self._slot(event)] = event["weak"]
            size = event.get("bytes")
            if isinstance(size, int) and size >= 0:
                self._sizes[self._cell(event["at"])] = size
        elif op == "root":
            if event["to"] is None:
                self._roots.pop(event["name"], None)
            else:
                self._roots[event["name"]] = event["to"]
        elif op == "assert-ownedby":
            self._owners[event["ownee"]] = event["owner"]

    def _slot(self, event: Dict[str, Any]) -> int:
        return self._first_slots[self._cell(event["at"])] + event["slot"]

    def _traced(self) -> bytearray:
        """For each object whether a collection traces it: from the roots, and from what owners hold."""
        traced = bytearray(len(self._ids))
        work = []
        for number in self._roots.values():
            cell = self._cell(number)
            if not traced[cell]:
                traced[cell] = 1
                work.append(cell)
        for owner in {self._cell(owner) for ownee, owner in self._owners.items() if self._is_live[self._cell(ownee)]}:
            if self._is_live[owner]:
                work.append(owner)  # what it holds is traced, and it itself only where something leads to it
        first, held, is_weak, is_live, cell_of = self._first_slots, self._held, self._is_weak, self._is_live, self._cell
        while work:
            cell = work.pop()
            for slot in range(first[cell], first[cell + 1]):
                number = held[slot]
                if number and not is_weak[slot]:
                    to = cell_of(number)
                    if not traced[to] and is_live[to]:
                        traced[to] = 1
                        work.append(to)
        return traced

    def free(self) -> None:
        """What a collection doesn't trace is gone."""
        self._is_live = self._traced()
        alive = self._is_live
        for slot in range(len(self._held)):
            number = self._held[slot]
            if number and not alive[self._cell(number)]:
                self._held[slot] = 0

    def graph(self) -> Graph:
        """What is traced now, as a graph."""
        traced = self._traced()
        cells = [cell for cell, is_traced in enumerate(traced) if is_traced]
        node_of = array("I", [_NOWHERE]) * len(traced)
        for node, cell in enumerate(cells):
            node_of[cell] = node
        graph = Graph()
        graph.numbers = array("I", (self._ids[cell] for cell in cells))
        graph.kinds = array("I", (self._kinds[cell] for cell in cells))
        graph.type_names, graph.label_texts = self._types.texts, self._label_names.texts
        if self._has_sizes:
            graph.sizes = array("Q", (self._sizes[cell] for cell in cells))
        starts, targets, labels = array("Q", [0]), array("I"), array("I")
        first, held, is_weak, cell_of = self._first_slots, self._held, self._is_weak, self._cell
        for cell in cells:
            for slot in range(first[cell], first[cell + 1]):
                number = held[slot]
                if number and not is_weak[slot]:
                    to = node_of[cell_of(number)]
                    if to != _NOWHERE:
                        targets.append(to)
                        labels.append(self._labels[slot])
            starts.append(len(targets))
        graph.starts, graph.targets, graph.labels = starts, targets, labels
        graph.roots = [(name, node_of[self._cell(number)]) for name, number in self._roots.items()]
        return graph


def heaps(
    trace: str, at: Callable[[int], None] = lambda done: None, heap: Optional[TraceHeap] = None
) -> Iterator[TraceHeap]:
    """The heap before each collection of a trace, in one that is new or that is given. `at` is told now and then how many bytes were read."""
    heap = TraceHeap() if heap is None else heap
    try:
        for event in _events(trace, at):
            if event["op"] == "collect":
                yield heap
                heap.free()
            else:
                heap.apply(event)
    except (KeyError, TypeError, IndexError, AttributeError, OverflowError, ValueError):
        raise TraceError("%s is no trace that gcaudit takes; gcaudit says in which line" % trace) from None


def _events(trace: str, at: Callable[[int], None]) -> Iterator[Dict[str, Any]]:
    done = 0
    with open(trace, "rb", buffering=1 << 20) as file:
        while True:
            lines = file.readlines(1 << 20)
            if not lines:
                return
            done += sum(map(len, lines))
            yield from json.loads(b"[" + b",".join(line for line in lines if not line.isspace()) + b"]")
            at(done)

"""The edges of a snapshot as arrays, and which of those to classes something is reached by alone."""
from array import array
from collections import deque
from itertools import accumulate
from typing import Deque, Iterable, List, Sequence


class Edges:
    """Of each edge its type, its name or index, and the node that it leads to. The edges of a node follow on one another."""

    def __init__(self) -> None:
        self.kinds = bytearray()
        self.names = array("I")
        self.targets = array("I")
        self.starts = array("Q", [0])  # of each node where its edges begin

    def __len__(self) -> int:
        return len(self.targets)

    def add(self, kinds: bytes, names: Iterable[int], targets: Iterable[int]) -> None:
        self.kinds += kinds
        self.names.extend(names)
        self.targets.extend(targets)

    def settle(self, counts: Sequence[int]) -> None:
        """All are there; so many belong to each node."""
        self.starts = array("Q", accumulate(counts, initial=0))

    def of(self, node: int) -> range:
        """The edges of a node."""
        return range(self.starts[node], self.starts[node + 1])


def needed(edges: Edges, weak: int, is_passed: Sequence[int], waits: Sequence[int]) -> List[int]:
    """Of the edges that wait those without which something would not be reached from the first node, nearest first.

    They are followed when all others have been. Weak edges aren't followed, and nothing goes on through nodes that are passed.
    """
    seen = bytearray(is_passed)
    seen[0] = 1
    starts, targets, kinds = edges.starts, edges.targets, edges.kinds
    waiting: Deque[int] = deque()
    found: List[int] = []
    order = [0]
    while True:
        for node in order:  # which become more meanwhile
            for edge in range(starts[node], starts[node + 1]):
                to = targets[edge]
                if seen[to] or kinds[edge] == weak:
                    continue
                if waits[edge]:
                    waiting.append(edge)
                else:
                    seen[to] = 1
                    order.append(to)
        while waiting and seen[targets[waiting[0]]]:
            waiting.popleft()
        if not waiting:
            return found
        found.append(waiting.popleft())
        order = [targets[found[-1]]]
        seen[order[0]] = 1

"""Shortest paths from the roots of a graph, what holds an object by name, and the shape of a path."""
import re
from array import array
from typing import Dict, Iterator, List, Match, NamedTuple, Optional, Sequence, Tuple

from .graph import Graph
from .path import MORE, Path, Step

_NONE = 0xFFFFFFFF
_SHOWN_STEPS = 32  # at each end of a path
_FROM_ROOT = 0xFFFFFFFE
# Objects that only stand between a holder with a name and what it holds.
_BETWEEN = frozenset(
    {
        "list",
        "dict",
        "tuple",
        "set",
        "frozenset",
        "cell",
        "function",
        "method",
        "builtin_function_or_method",
        "generator",
        "coroutine",
        "async_generator",
        "collections.deque",
        "collections.OrderedDict",
        "collections.defaultdict",
        "functools.partial",
        "mappingproxy",
        "weakref.ReferenceType",
        "dict_itemiterator",
        "list_iterator",
        "Array",
        "Map",
        "Set",
        "Object",
        "code",
        "array",
        "hidden",
        "closure",
        "system / Context",
        "system / PropertyCell",
        "(object elements)",
        "(object properties)",
        "java.io.ByteArrayOutputStream",
        "ArrayBuffer",
        "SharedArrayBuffer",
        "Buffer",
        "FastBuffer",
        "Uint8Array",
        "Float64Array",
        "DataView",
        "string",
        "Hash",
        "Proc",
        "Method",
        "(environment)",
        "(hidden array)",
    }
)
_BETWEEN_BEGINS = (
    "java.util.",
    "java.lang.String",
    "java.nio.",
    "function ",
    "method ",
    "generator ",
    "coroutine ",
    "async_generator ",
    "system / ",
    "left out ",
    "more of ",
    "more ",
    "joint ",
)
# What differs from element to element, or from run to run: indexes and keys, V8's numbers of objects, counts.
_CHANGING = re.compile(r"(\[)[^\]]*(\])|(@)\d+()|(^)\d+( / )|(\(over )\d+( left out\))")
_CHANGING_IN_TYPES = re.compile(r"(@)\d+()|( \()\d+(\))|( and )\d+( more$)")
_NUMBERS = re.compile(r"\d+")


def is_between(type_name: str) -> bool:
    """Whether objects of the type hold others without a name of the program's own: lists, functions, the tables of a map."""
    return type_name in _BETWEEN or type_name.startswith(_BETWEEN_BEGINS) or type_name.endswith("[]")


def _star(found: Match) -> str:
    """What stands around a number, with a star in its place."""
    before, after = (part for part in found.groups() if part is not None)
    return before + "*" + after


def label_shape(label: str) -> str:
    """A label without what differs from element to element and from run to run: `[*]` for an index or a key."""
    return _CHANGING.sub(_star, label)


def type_shape(type_name: str) -> str:
    """A type without what differs from object to object: lengths, numbers of objects, and the lines of frames."""
    if type_name.startswith("frame "):
        return _NUMBERS.sub("*", type_name)
    return _CHANGING_IN_TYPES.sub(_star, type_name)


def root_shape(root: str) -> str:
    """The name of a root without numbers; those that were given a number to be told apart have one shape."""
    return _NUMBERS.sub("*", re.sub(r" #\d+$", "", root))


class Holder(NamedTuple):
    """What holds objects by name: its type (empty for a root), and the name, as `shop.EventBus.listeners` or `root bus`."""

    type_name: str
    name: str


class Tree:
    """A shortest path to each node: at each step back the node with the least id, by its least slot."""

    def __init__(self, graph: Graph) -> None:
        self.graph = graph
        self.order = array("I")  # the nodes, those nearest to the roots first
        self.holders = array("I", [_NONE]) * len(graph)  # the node before each; _FROM_ROOT where a root names it
        self.edges = array(
            "Q", bytes(8 * len(graph))
        )  # the place of its slot among the graph's edges, or of its root among the roots
        self._walk()

    def _walk(self) -> None:
        graph, holders, edges, order = self.graph, self.holders, self.edges, self.order
        starts, targets = graph.starts, graph.targets
        level = []
        for place, (_, node) in sorted(enumerate(graph.roots), key=lambda one: one[1][0]):
            if holders[node] == _NONE:
                holders[node], edges[node] = _FROM_ROOT, place
                level.append(node)
        while level:
            level.sort()
            order.extend(level)
            following = []
            for node in level:
                for edge in range(starts[node], starts[node + 1]):
                    held = targets[edge]
                    if holders[held] == _NONE:
                        holders[held], edges[held] = node, edge
                        following.append(held)
            level = following

    def is_reached(self, node: int) -> bool:
        """Whether a root leads to it; else only an owner does."""
        return self.holders[node] != _NONE

    def holder(self, node: int) -> Optional[int]:
        """The node before it on its path; None where a root names it."""
        found = self.holders[node]
        return None if found == _FROM_ROOT else found

    def label(self, node: int) -> str:
        """The label of the slot through which its path comes."""
        return self.graph.label_texts[self.graph.labels[self.edges[node]]]

    def root(self, node: int) -> str:
        """The name of the root that its path begins at, for a node that a root names."""
        return self.graph.roots[self.edges[node]][0]

    def way(self, node: int) -> List[int]:
        """The nodes of its path, from the root's on."""
        found = [node]
        while self.holders[node] != _FROM_ROOT:
            node = self.holders[node]
            found.append(node)
        return found[::-1]

    def path(self, node: int) -> Path:
        """Its path as the report shows it."""
        graph, way = self.graph, self.way(node)
        steps: List[Step] = []
        shown = way[1:]
        skipped = len(shown) - 2 * _SHOWN_STEPS
        for place, at in enumerate(shown):
            if skipped > 0 and _SHOWN_STEPS <= place < _SHOWN_STEPS + skipped:
                continue
            label = self.label(at)
            if label != MORE:
                left_out = skipped if skipped > 0 and place == _SHOWN_STEPS + skipped else 0
                steps.append(Step(label or "[slot]", graph.numbers[at], graph.type_of(at), left_out))
        return Path(self.root(way[0]), graph.numbers[way[0]], graph.type_of(way[0]), tuple(steps))

    def holders_by_name(self) -> Tuple[Sequence[int], List[Holder]]:
        """For each node a place in the list: what holds it by name, the nearest holder that isn't only in between, or the root."""
        graph = self.graph
        between = [is_between(name) for name in graph.type_names]
        names = [Holder("", "root " + name) for name, _ in graph.roots]
        known: Dict[Tuple[int, int], int] = {}
        found = array("I", bytes(4 * len(graph)))
        holders, edges, kinds, labels = self.holders, self.edges, graph.kinds, graph.labels
        for node in self.order:
            above, edge = holders[node], edges[node]
            if above == _FROM_ROOT:
                found[node] = edge
            elif between[kinds[above]]:
                found[node] = found[above]
            else:
                key = kinds[above], labels[edge]
                place = known.get(key)
                if place is None:
                    place = known[key] = len(names)
                    names.append(named_holder(graph.type_names[key[0]], graph.label_texts[key[1]]))
                found[node] = place
        return found, names


def named_holder(type_name: str, label: str) -> Holder:
    """What holds by name: a type and one of its slots."""
    shape = label_shape(label)
    return Holder(type_name, type_name + shape if shape.startswith((".", "[")) else "%s %s" % (type_name, shape))


class Shape(NamedTuple):
    """What paths have in common: the root's name without numbers, and types and labels without indexes and keys."""

    start: str
    steps: Tuple[Tuple[str, str], ...]  # label and type; what repeats stands once

    def __str__(self) -> str:
        return self.start + "".join(" %s -> %s" % step for step in self.steps)


def path_shape(path: Path) -> Shape:
    """The shape of a path: a run of the same step, as along a list of nodes, counts once."""
    start = "owner" if path.root is None else "root " + root_shape(path.root)
    steps: List[Tuple[str, str]] = []
    for step in path.steps:
        one = label_shape(step.label), type_shape(step.type_name)
        if one not in steps[-2:]:
            steps.append(one)
    return Shape("%s -> %s" % (start, type_shape(path.type_name)), tuple(steps))

"""Dominators: how much of a heap each object keeps alive alone."""
from array import array
from typing import Dict, Iterator, List, NamedTuple, Sequence, Tuple

from .graph import Graph
from .with_numpy import numpy_is_there

_NONE = 0xFFFFFFFF


class Kept(NamedTuple):
    """Of each node how many objects it keeps alive alone, itself counted, and their bytes (zeros where unknown).

    `dominators` has the node through which every path from a root comes, nearest to it; where there is none, the
    number of nodes.
    """

    objects: Sequence[int]
    bytes: Sequence[int]
    dominators: Sequence[int]
    order: Sequence[int]  # the nodes that roots reach, each after its dominator


def kept_alone(graph: Graph) -> Kept:
    """Finds the dominators by semidominators, in the order of a walk in depth from all roots."""
    size = len(graph)
    order, place_of, parents = _in_depth(graph)
    above = _dominators(graph, order, place_of, parents)
    objects, total = array("Q", [1]) * size, array("Q", graph.sizes or array("Q", bytes(8 * size)))
    dominators = array("I", [_NONE]) * size
    for place in range(len(order) - 1, 0, -1):
        node = order[place]
        if above[place]:
            holder = order[above[place]]
            dominators[node] = holder
            objects[holder] += objects[node]
            total[holder] += total[node]
        else:
            dominators[node] = size
    return Kept(objects, total, dominators, order[1:])


def _in_depth(graph: Graph) -> Tuple[array, array, array]:
    """Nodes in the order of a walk in depth, behind a start that holds all roots; of each node its place there; of each place the one before it."""
    size, starts, targets = len(graph), graph.starts, graph.targets
    order, parents = array("I", [size]), array("I", [0])
    place_of = array("I", [_NONE]) * size
    following = array("Q", starts)  # of each node the reference that is looked at next
    for _, root in graph.roots:
        if place_of[root] != _NONE:
            continue
        node, place = root, len(order)
        place_of[node] = place
        parents.append(0)
        order.append(node)
        while place:
            edge, end = following[node], starts[node + 1]
            while edge < end:
                held = targets[edge]
                edge += 1
                if place_of[held] == _NONE:
                    following[node] = edge
                    parents.append(place)
                    node, place = held, len(order)
                    place_of[node] = place
                    order.append(node)
                    break
            else:
                place = parents[place]
                node = order[place]
    return order, place_of, parents


class _Holders(NamedTuple):
    """Of each place the least place of its holders, and those that stand behind it: `behind[begins[place]:begins[place + 1]]`.

    What only owners lead to has no place, and is no holder.
    """

    least: Sequence[int]
    begins: Sequence[int]
    behind: Sequence[int]


def _holders(graph: Graph, place_of: array, count: int) -> _Holders:
    if numpy_is_there():
        from .holders_numpy import holders

        return _Holders(*holders(graph, place_of, count))
    least = array("I", [_NONE]) * count
    begins = array("Q", bytes(8 * (count + 1)))
    for holder, places in _held_places(graph, place_of):
        for place in places:
            if holder < least[place]:
                least[place] = holder
            if holder > place:
                begins[place] += 1
    total = 0
    for place in range(count + 1):
        total += begins[place]
        begins[place] = total
    behind = array("I", bytes(4 * total))
    for holder, places in _held_places(graph, place_of):
        for place in places:
            if holder > place:
                begins[place] -= 1
                behind[begins[place]] = holder
    return _Holders(least, begins, behind)


def _held_places(graph: Graph, place_of: Sequence[int]) -> Iterator[Tuple[int, Iterator[int]]]:
    """The references by places: who holds, and what each holds."""
    starts, targets, place_at = graph.starts, graph.targets, place_of.__getitem__
    start = 0
    for holder, end in zip(place_of, starts[1:]):
        if end > start and holder != _NONE:
            yield holder, map(place_at, targets[start:end])
        start = end


def _dominators(graph: Graph, order: Sequence[int], place_of: array, parents: Sequence[int]) -> Sequence[int]:
    """The place of the dominator of each place."""
    count = len(order)
    semi, begins, behind = _holders(graph, place_of, count)
    assert isinstance(semi, array)
    for _, root in graph.roots:
        semi[place_of[root]] = 0
    best = array("I", range(count))  # the place with the least semidominator on the way up that was walked
    linked = array("I", [_NONE]) * count  # the next place up that was linked
    for place in range(count - 1, 0, -1):
        least = semi[place]
        if least:
            for at in range(begins[place], begins[place + 1]):
                holder = behind[at]
                up = linked[holder]
                if linked[up] == _NONE:  # nothing to shorten
                    holder = semi[best[holder]]
                else:
                    holder = semi[_least(holder, linked, best, semi)]
                if holder < least:
                    least = holder
            semi[place] = least
        linked[place] = parents[place]
    above = array("I", parents)
    for place in range(1, count):
        at, least = above[place], semi[place]
        while at > least:
            at = above[at]
        above[place] = at
    return above


def _least(place: int, linked: array, best: array, semi: array) -> int:
    """The place with the least semidominator from here up to the top of what is linked; the way is shortened."""
    way = []
    at = place
    while linked[at] != _NONE and linked[linked[at]] != _NONE:
        way.append(at)
        at = linked[at]
    for below in reversed(way):
        up = linked[below]
        if semi[best[up]] < semi[best[below]]:
            best[below] = best[up]
        linked[below] = linked[up]
    return best[place]


def kept_by_type(graph: Graph, kept: Kept) -> Dict[str, Tuple[int, int]]:
    """By type how many objects its objects keep alive alone, they themselves counted, and their bytes."""
    return dict(zip(graph.type_names, kept_by_group(kept, graph.kinds, len(graph.type_names))))


def kept_by_group(kept: Kept, groups: Sequence[int], count: int) -> List[Tuple[int, int]]:
    """Of each of so many groups of nodes how many objects its nodes keep alive alone, they themselves counted, and their bytes.

    A node that another one of its group keeps counts with that one.
    """
    objects, total = kept.objects, kept.bytes
    in_turn = _in_turn(kept)
    ends = array("q", [-1]) * count  # the last place that belongs to the node of each group that was met last
    found_objects, found_bytes = [0] * count, [0] * count
    for place, node in enumerate(in_turn):
        group = groups[node]
        if place > ends[group]:
            ends[group] = place + objects[node] - 1
            found_objects[group] += objects[node]
            found_bytes[group] += total[node]
    return list(zip(found_objects, found_bytes))


def _in_turn(kept: Kept) -> Sequence[int]:
    """The nodes that roots reach, each with all that it keeps alone right after it."""
    size = len(kept.objects)
    following = array(
        "I", bytes(4 * (size + 1))
    )  # the next place that is free below each node, and at last below the start
    in_turn = array("I", bytes(4 * len(kept.order)))
    dominators, objects = kept.dominators, kept.objects
    for node in kept.order:
        above = dominators[node]
        place = following[above]
        following[above] = place + objects[node]
        following[node] = place + 1
        in_turn[place] = node
    return in_turn

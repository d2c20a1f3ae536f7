"""Objects that something is asserted of, that are alive, and that no root leads to."""
import gc
from typing import Any, Callable, Dict, List, NamedTuple, Set, Tuple

from .assertions import OWN_REFERENCES, Assertion, Hold
from . import collector
from .collector import references_of_garbage, tracked_objects
from .contents import PLAIN, WEAK, Content, contents, shape_of
from .holders import Link, holder_chains
from .instances import Limits
from .regions import Regions
from .walk import Walk

BESIDE = "(alive, and no root leads to it)"  # the name of the root that stands for what else holds an object
NOT_LOOKED_FOR = "what holds it was not looked for"
_MOST_CHAINS = 100
_MOST_BETWEEN = 200000  # so many lists and the like are looked through at most


class Beside(NamedTuple):
    """Places of objects that no root leads to: those with a chain of their holders, and those without."""

    chains: List[Tuple[int, List[Link]]]
    rest: List[int]


def find_beside(
    walk: Walk, assertions: List[Assertion], limits: Limits, held: Dict[int, Set[int]], regions: Regions
) -> Beside:
    """Puts what is alive and not reached into the walk: what must be dead, and what counts for a limit.

    `held` has the addresses of what the recorder itself holds. What is left of a region stands in the trace with the
    references among its objects, so that those that only hang from others need no chain of their own.
    """
    unreached = [one for one in assertions if one.kind == "dead" and not walk.traces(one.target.get())]
    _drop_what_only_the_recorder_holds([one.target for one in unreached], regions)
    found = {True: {}, False: {}}  # type: Dict[bool, Dict[int, Any]]
    for one in unreached:
        obj = one.target.get()
        if obj is not None:
            found[one.in_region][id(obj)] = obj
    alone = list(found[False].values())
    left = [obj for address, obj in found[True].items() if address not in found[False]]
    counted = [obj for obj in _instances(walk, limits, regions) if id(obj) not in held]
    counted = [obj for obj in counted if id(obj) not in found[False] and id(obj) not in found[True]]
    tops, held_of = _among(left)
    walk.add_all(alone + counted, _marked(limits))
    walk.add_all(left, lambda obj: held_of.get(id(obj), []))
    above = alone + counted + tops
    for obj in above:
        walk.is_traced[walk.now.place_of[id(obj)]] = 1
    some = above[:_MOST_CHAINS]
    lists = (found, found[True], found[False], alone, left, counted, tops, above, some, held_of, *held_of.values())
    own = {id(one) for one in lists} | {id(walk.objects)} | regions.own()
    own.update(id(content) for contents_of in held_of.values() for content in contents_of)
    chains = holder_chains(some, own) if some else {}
    return Beside(
        [(walk.now.place_of[id(obj)], chains.get(id(obj)) or [Link(NOT_LOOKED_FOR, "(held)")]) for obj in some],
        [walk.now.place_of[id(obj)] for obj in above[_MOST_CHAINS:]],
    )


def _drop_what_only_the_recorder_holds(holds: List[Hold], regions: Regions) -> None:
    """An object without weak references is held by its assertions. Where nothing else keeps it alive, they drop it."""
    of_address: Dict[int, List[Hold]] = {}
    for hold in holds:
        if hold.holds_itself():
            of_address.setdefault(id(hold.get()), []).append(hold)
    tracked: Dict[int, type] = {}
    for address, those in of_address.items():
        if gc.is_tracked(those[0].get()):
            if collector.garbage is not None:
                continue  # it was found to be alive
            tracked[address] = type(those[0].get())
            for hold in those:
                hold.drop()
        elif those[0].references() - OWN_REFERENCES - references_of_garbage(those[0].get()) <= len(
            those
        ) + regions.holds(those[0].get()):
            for hold in those:
                hold.drop()
    if tracked:
        # It may hold itself in a circle, so only Python's collector can tell whether it is alive.
        regions.collect()
        for obj in tracked_objects(bool(regions)):
            if tracked.get(id(obj)) is type(obj):
                for hold in of_address[id(obj)]:
                    hold.take(obj)


def _instances(walk: Walk, limits: Limits, regions: Regions) -> List[Any]:
    """The objects that count for a limit and that no root reaches."""
    if not limits:
        return []
    found, counts, sought = [], {}, limits.sought()  # type: List[Any], Dict[int, int], Dict[int, Any]
    for obj in tracked_objects(bool(regions)):
        kind = id(type(obj))
        counts[kind] = counts.get(kind, 0) + 1
        if kind in sought and not walk.traces(obj):
            found.append(obj)
    limits.say_of_subclasses(counts)
    return found


def _marked(limits: Limits) -> Callable[[Any], List[Content]]:
    """What an object that counts for limits holds in the trace: what is counted in its place."""
    counted = limits.counted()
    return lambda obj: [
        ("(is a)", limit.marker(obj)) for limit in counted.get(id(type(obj)), ()) if not limit.reached_only
    ]


def _among(objects: List[Any]) -> Tuple[List[Any], Dict[int, List[Content]]]:
    """The objects to which no other one of them leads, and by address what each holds of the others.

    References lead on through lists and the like, which have no weak references; a label has all steps.
    """
    wanted = {id(obj): obj for obj in objects}
    held_of: Dict[int, List[Content]] = {}
    between: Set[int] = set()
    for obj in objects:
        found = held_of[id(obj)] = []
        work: List[Tuple[str, Any]] = [("", obj)]
        while work:
            label, at = work.pop()
            for step, held in contents(at, shape_of(at)):
                if step is WEAK or type(held) in PLAIN or held is obj:
                    continue
                way = label + ("[%d]" % step if isinstance(step, int) else step)
                if id(held) in wanted:
                    found.append((way, held))
                    continue
                shape = shape_of(held)
                if not (shape.left_out or shape.inner or shape.weakly or id(held) in between):
                    if len(between) < _MOST_BETWEEN:
                        between.add(id(held))
                        work.append((way, held))
    return _tops(objects, held_of), held_of


def _tops(objects: List[Any], held_of: Dict[int, List[Content]]) -> List[Any]:
    """Some of the objects, as few as can be, that lead to all others."""
    tops: Dict[int, Any] = {}
    seen: Set[int] = set()
    for obj in objects:
        if id(obj) in seen:
            continue
        seen.add(id(obj))
        work = [obj]
        while work:
            for _, held in held_of[id(work.pop())]:
                tops.pop(id(held), None)  # an earlier one, to which this one leads
                if id(held) not in seen:
                    seen.add(id(held))
                    work.append(held)
        tops[id(obj)] = obj
    return list(tops.values())

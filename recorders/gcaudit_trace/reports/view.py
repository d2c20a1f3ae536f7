"""The report in groups, each with a sample path and what it keeps alive."""
from typing import Dict, List, NamedTuple, Optional, Set, Tuple

from ..graphs.dominators import Kept as KeptOfAll, kept_alone, kept_by_type
from ..graphs.graph import Graph
from ..graphs.trace_heap import heaps
from .audit import Audit
from .groups import Group, counted, grouped

SENTENCES = {
    "dead": "must be dead and is reached",
    "instances": "has more objects than its limit",
    "unshared": "may have one reference and has more",
    "ownedby": "outlives its owner's hold on it",
    "unknown": "is violated",
}


class Kept(NamedTuple):
    """How many objects something keeps alive alone, itself counted, and their bytes where these are known."""

    objects: int
    bytes: Optional[int]

    def __str__(self) -> str:
        size = "" if self.bytes is None else ", {:,} bytes".format(self.bytes)
        return "{:,} object{}{} alive alone".format(self.objects, "" if self.objects == 1 else "s", size)


class Shown(NamedTuple):
    """A group with what its objects keep alive; None where the graph doesn't tell it."""

    group: Group
    kept: Optional[Kept]

    @property
    def title(self) -> str:
        """What is wrong, in one line."""
        group, count = self.group, len(self.group.verdicts)
        if group.kind == "instances":
            return "%s %s: %d, and the limit is %d" % (
                group.type_name,
                SENTENCES[group.kind],
                group.sample.count,
                group.sample.limit,
            )
        return "%s%s %s" % (
            group.type_name or "an assertion",
            " (%d times)" % count if count > 1 else "",
            SENTENCES[group.kind],
        )

    @property
    def paths(self) -> List[str]:
        return [str(path) for path in self.group.sample.paths] or ["path left out"]

    @property
    def notes(self) -> List[str]:
        """What else there is to say, a sentence each."""
        found = ["collection %d" % self.group.sample.collection]
        if self.group.sample.kind == "unshared":
            found.append("%d references" % self.group.sample.count)
        if self.group.sample.kind == "ownedby":
            found.append(
                "its owner, object %d, %s"
                % (self.group.sample.owner, "is gone" if self.group.sample.owner_gone else "doesn't lead to it")
            )
        if self.kept is not None:
            are_more = self.group.kind != "instances" and len(self.group.verdicts) > 1
            found.append("%s %s" % ("they keep" if are_more else "keeps", self.kept))
        if self.group.hanging:
            found.append(
                "%d more that must be dead hang from %s: %s"
                % (
                    len(self.group.hanging),
                    "it" if len(self.group.verdicts) == 1 else "them",
                    counted(one.type_name for one in self.group.hanging),
                )
            )
        return found


class View(NamedTuple):
    """All that is shown of a trace."""

    trace: str
    shown: List[Shown]
    violations: int
    collections: int

    def text(self) -> str:
        lines = []
        for one in self.shown:
            lines.append("%s (%s)" % (one.title, "; ".join(one.notes)))
            lines += ["    " + path for path in one.paths]
        lines.append(
            "%d violations in %d groups; %d collections" % (self.violations, len(self.shown), self.collections)
        )
        return "\n".join(lines) + "\n"


def view_of(done: Audit, trace: str, name: str) -> View:
    """The groups of a report, with what they keep alive by the graphs of the collections in question."""
    groups = grouped(done.verdicts)
    wanted: Dict[int, List[int]] = {}
    for place, group in enumerate(groups):
        wanted.setdefault(group.sample.collection, []).append(place)
    kept: Dict[int, Optional[Kept]] = {}
    if wanted:
        for collection, heap in enumerate(heaps(trace), 1):
            if collection in wanted:
                graph = heap.graph()
                alone = kept_alone(graph)
                by_type = kept_by_type(graph, alone)
                for place in wanted[collection]:
                    kept[place] = _kept_of(groups[place], graph, alone, by_type)
            if collection >= max(wanted):
                break
    last = done.report.rstrip("\n").split("\n")[-1].split(" ")
    shown = [Shown(group, kept.get(place)) for place, group in enumerate(groups)]
    shown.sort(key=lambda one: (-(one.kept.bytes or 0), -one.kept.objects) if one.kept else (0, 0))
    return View(name, shown, int(last[-1]), int(last[2]))


def _kept_of(group: Group, graph: Graph, alone: KeptOfAll, by_type: Dict[str, Tuple[int, int]]) -> Optional[Kept]:
    has_sizes = graph.sizes is not None
    if group.kind == "instances":
        objects, size = by_type.get(group.sample.type_name, (0, 0))
        return Kept(objects, size if has_sizes else None) if objects else None
    found = (graph.node_of(verdict.number) for verdict in group.verdicts)
    nodes = _outermost({node for node in found if node is not None}, alone)
    if not nodes:
        return None
    return Kept(
        sum(alone.objects[node] for node in nodes), sum(alone.bytes[node] for node in nodes) if has_sizes else None
    )


def _outermost(nodes: Set[int], alone: KeptOfAll) -> List[int]:
    """Those of the nodes that no other one of them keeps, so that what all keep is counted once."""
    below: Dict[int, bool] = {}  # of nodes on the way up whether one of the nodes is there or above
    found = []
    for node in nodes:
        way, at = [], alone.dominators[node]
        while at < len(alone.dominators) and at not in nodes and at not in below:
            way.append(at)
            at = alone.dominators[at]
        is_kept = at in nodes or below.get(at, False)
        below.update(dict.fromkeys(way, is_kept))
        if not is_kept:
            found.append(node)
    return found

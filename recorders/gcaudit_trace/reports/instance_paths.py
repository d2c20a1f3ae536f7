"""A path to each object of a type that has more than its limit; gcaudit's own report has one path."""
from typing import Dict, List

from ..graphs.paths import Tree
from ..graphs.trace_heap import heaps
from .audit import Audit
from .report import Verdict


def with_instances(done: Audit, trace: str) -> str:
    """The named report, with a line for each object of the type behind each line that tells of too many instances."""
    wanted: Dict[int, List[Verdict]] = {}
    for verdict in done.verdicts:
        if verdict.kind == "instances":
            wanted.setdefault(verdict.collection, []).append(verdict)
    lines: Dict[str, List[str]] = {}
    if wanted:
        for collection, heap in enumerate(heaps(trace), 1):
            if collection in wanted:
                tree = Tree(heap.graph())
                for verdict in wanted[collection]:
                    lines[verdict.line] = _lines(verdict, tree)
            if collection >= max(wanted):
                break
    shown = []
    for line in done.named.split("\n"):
        shown.append(line)
        shown += lines.get(line, [])
    return "\n".join(shown)


def _lines(verdict: Verdict, tree: Tree) -> List[str]:
    graph = tree.graph
    nodes = [node for node in range(len(graph)) if graph.type_of(node) == verdict.type_name]
    return [
        "gc %d instance %d of %d %s: %s"
        % (
            verdict.collection,
            place,
            len(nodes),
            verdict.type_name,
            tree.path(node) if tree.is_reached(node) else "only an owner leads to it",
        )
        for place, node in enumerate(nodes, 1)
    ]

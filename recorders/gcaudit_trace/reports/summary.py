"""What is in a heap by type, and what each root reaches."""
from collections import Counter
from typing import Any, Iterator, List, Optional, Sequence, Tuple

from ..graphs.dominators import Kept, kept_alone, kept_by_type
from ..graphs.graph import Graph
from .tables import table

_MOST_STEPS = 6000000  # so many objects are gone through at most to say what roots reach


def summary(graph: Graph, top: int) -> str:
    """How many objects there are, and how many of them no root reaches, and the tables of types and of roots."""
    kept = kept_alone(graph)
    whole = "%s objects" % format(len(graph), ",")
    if graph.sizes is not None:
        whole += ", %s bytes" % format(sum(graph.sizes), ",")
    unreached = len(graph) - len(kept.order)
    if unreached:
        whole += "; no root reaches %s of them" % format(unreached, ",")
    if unreached and graph.sizes is not None:
        sizes = graph.sizes
        whole += ", %s bytes" % format(sum(sizes) - sum(sizes[node] for node in kept.order), ",")
    return "%s\n\n%s\n\n%s\n" % (whole, _types(graph, kept, top), _roots(graph, kept, top))


def _types(graph: Graph, kept: Kept, top: int) -> str:
    counts = Counter(graph.kinds)
    sizes = [0] * len(graph.type_names)
    for kind, size in zip(graph.kinds, graph.sizes or ()):
        sizes[kind] += size
    alone = kept_by_type(graph, kept)
    rows: List[Tuple[Any, ...]] = [
        (objects, sizes[kind], *alone.get(graph.type_names[kind], (0, 0)), graph.type_names[kind])
        for kind, objects in counts.items()
    ]
    by = 1 if graph.sizes is not None else 0
    rows.sort(key=lambda row: (-row[by], -row[0], row[-1]))
    return _shown(graph, ("objects", "bytes", "kept alone", "bytes kept alone", "type"), rows, top, "types")


def _roots(graph: Graph, kept: Kept, top: int) -> str:
    rows = []
    reach = _reached(graph)
    for name, node in graph.roots:
        reached = next(reach)
        alone = kept.dominators[node] == len(graph)
        rows.append((reached, None, kept.objects[node] if alone else 0, kept.bytes[node] if alone else 0, name))
    rows.sort(key=lambda row: (-row[2], -(row[0] or 0), row[-1]))
    return _shown(graph, ("reaches", "", "kept alone", "bytes kept alone", "root"), rows, top, "roots")


def _reached(graph: Graph) -> Iterator[Optional[int]]:
    """How many objects each root reaches, as long as that doesn't take too long."""
    left = _MOST_STEPS
    for _, root in graph.roots:
        if left <= 0:
            yield None
            continue
        seen = bytearray(len(graph))
        seen[root], work, count = 1, [root], 0
        while work:
            node = work.pop()
            count += 1
            for held in graph.held_by(node):
                if not seen[held]:
                    seen[held] = 1
                    work.append(held)
        left -= count
        yield count


def _shown(graph: Graph, heads: Tuple[str, ...], rows: Sequence[Tuple], top: int, what: str) -> str:
    """The first rows, without columns that say nothing."""
    used = [place for place, head in enumerate(heads) if head and (graph.sizes is not None or "bytes" not in head)]
    text = table([heads[place] for place in used], ([row[place] for place in used] for row in rows[:top]))
    return text + ("\nand %d %s more" % (len(rows) - top, what) if len(rows) > top else "")

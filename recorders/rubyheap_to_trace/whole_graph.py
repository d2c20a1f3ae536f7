"""The whole heap of a dump as a graph, in arrays: texts and numbers too."""
from array import array
from typing import BinaryIO, Dict, Iterable, List, Tuple

from gcaudit_trace.dumps.named_roots import named_roots
from gcaudit_trace.dumps.options import Wishes, parser_for
from gcaudit_trace.graphs.graph import Graph, Names
from gcaudit_trace.graphs.left_out import Staying
from gcaudit_trace.graphs.paths import label_shape
from gcaudit_trace.progress import Progress

from .convert import Heap


class DumpGraph:
    """Takes objects and what they hold, in one go, then the roots. Labels of elements stand without their indexes."""

    def __init__(self) -> None:
        self._graph = Graph()
        self._kinds, self._sizes, self._starts = array("I"), array("Q"), array("Q", [0])
        self._targets, self._labels = array("I"), array("I")
        self._types, self._label_names = Names(), Names()
        self._shapes: Dict[str, int] = {}

    def object(self, class_name: str, size: int, contents: List[Tuple[str, int, bool]]) -> None:
        """The next object, its bytes, and what it holds: label, number, whether weakly. Numbers are counted from 1."""
        self._kinds.append(self._types.place(class_name))
        self._sizes.append(size)
        for label, number, weak in contents:
            if not weak:
                self._targets.append(number - 1)
                self._labels.append(self._place_of(label))
        self._starts.append(len(self._targets))

    def _place_of(self, label: str) -> int:
        if label.startswith("["):
            label = "[*]"
        found = self._shapes.get(label)
        if found is None:
            found = self._shapes[label] = self._label_names.place(label_shape(label))
        return found

    def joint(self, class_name: str, joint: Staying) -> None:
        """Never comes, since nothing is left out."""
        raise NotImplementedError

    def finish(self, roots: Iterable[Tuple[str, int]]) -> Graph:
        """The whole graph, with the roots, each once and under a name of its own."""
        graph = self._graph
        graph.numbers = range(1, len(self._kinds) + 1)
        graph.kinds, graph.type_names, graph.sizes = self._kinds, self._types.texts, self._sizes
        graph.starts, graph.targets = self._starts, self._targets
        graph.labels, graph.label_texts = self._labels, self._label_names.texts
        graph.roots = named_roots(roots)
        return graph


def graph_of(file: BinaryIO, name: str, progress: Progress) -> Graph:
    """The whole heap of a dump as a graph, texts and numbers too."""
    wishes = Wishes(parser_for("", "").parse_args(["--", name, ""]), limited=False)
    heap = Heap(file, name, wishes, progress)
    heap.read()
    out = DumpGraph()
    heap.write(out)
    return out.finish(heap.roots())

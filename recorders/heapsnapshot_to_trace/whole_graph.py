"""The whole heap of a snapshot as a graph, in arrays: all of its nodes but the first, texts and numbers too."""
from array import array
from itertools import accumulate, compress
from operator import mul
from typing import BinaryIO, Dict, Tuple

from gcaudit_trace.dumps.named_roots import named_roots
from gcaudit_trace.dumps.options import Wishes, parser_for
from gcaudit_trace.graphs.graph import Graph, Names
from gcaudit_trace.graphs.paths import label_shape
from gcaudit_trace.progress import Progress

from .convert import NUMBERED, Snapshot


class _Places(Dict[Tuple[int, int], int]):
    """The place of a text by a type and a name, found when it is asked for first."""

    def __init__(self, texts: Names, text_of) -> None:
        super().__init__()
        self._texts = texts
        self._text_of = text_of

    def __missing__(self, key: Tuple[int, int]) -> int:
        found = self[key] = self._texts.place(self._text_of(*key))
        return found


class WholeSnapshot(Snapshot):
    """A snapshot of which nothing is left out. The first node has the roots and is no object; the others stand in its place, from 0 on."""

    def graph(self) -> Graph:
        graph, types = Graph(), Names()
        graph.kinds = array("I", map(_Places(types, self._class_name).__getitem__, zip(self.kinds[1:], self.names[1:])))
        graph.type_names, graph.sizes, graph.numbers = types.texts, self.sizes[1:], range(1, len(self.kinds))
        self._set_references(graph)
        graph.roots = named_roots(self.roots())
        return graph

    def _set_references(self, graph: Graph) -> None:
        """All edges but weak ones, those of the first node, and those that lead to it."""
        edges, labels = self.edges, Names()
        first = edges.starts[1]
        counts = edges.kinds.translate(bytes(kind != self._weak for kind in range(256)))
        counts[:first] = bytes(first)
        if 0 in edges.targets:
            counts = bytearray(map(mul, counts, map(bool, edges.targets)))
        before = array("I", accumulate(counts, initial=0))
        graph.starts = array("Q", map(before.__getitem__, edges.starts[1:]))
        graph.targets = array("I", map((-1).__add__, compress(edges.targets, counts)))
        # The indexes of elements have one label, whatever their numbers are.
        is_named = edges.kinds.translate(bytes(word not in NUMBERED for word in self.edge_words).ljust(256, b"\1"))
        keys = compress(zip(edges.kinds, map(mul, edges.names, is_named)), counts)
        graph.labels = array("I", map(_Places(labels, self._shape_of).__getitem__, keys))
        graph.label_texts = labels.texts

    def _shape_of(self, kind: int, name: int) -> str:
        return label_shape("[*]" if self.edge_words[kind] in NUMBERED else self._label(kind, name))


def graph_of(file: BinaryIO, name: str, progress: Progress) -> Graph:
    """The whole heap of a snapshot as a graph."""
    wishes = Wishes(parser_for("", "").parse_args(["--", name, ""]), limited=False)
    snapshot = WholeSnapshot(file, name, wishes, progress)
    snapshot.read()
    found = snapshot.graph()
    del snapshot.left  # which leads back to the snapshot, so that it would stay in memory for a while
    return found

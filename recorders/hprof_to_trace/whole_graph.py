"""The whole heap of a dump as a graph, in arrays: all of its objects, arrays of primitives too."""
import struct
from array import array
from itertools import compress, repeat
from typing import Any, BinaryIO, Callable, Dict, Iterable, List, NamedTuple, Sequence, Tuple

from gcaudit_trace.dumps.named_roots import named_roots
from gcaudit_trace.dumps.options import Wishes, parser_for
from gcaudit_trace.graphs.graph import Graph, Names
from gcaudit_trace.graphs.paths import label_shape
from gcaudit_trace.graphs.with_numpy import numpy_is_there
from gcaudit_trace.progress import Progress

from .convert import TO_CLASS, Heap, Layout
from .held_by_jvm import Held, Unheld
from .reader import CLASS, INSTANCE, OBJECT_ARRAY, Dump


class _Shape(NamedTuple):
    """What the instances of a class have in common."""

    kind: int
    layout: Layout
    labels: array
    is_special: bool  # whether they lead to their class, or to the classes that they defined


class WholeHeap(Heap):
    """The heap of a dump, of which nothing is left out. The node of an object is its code less 1."""

    def __init__(self, dump: Dump, wishes: Wishes, progress: Progress) -> None:
        super().__init__(dump, wishes, progress)
        self._types, self._label_names = Names(), Names()
        self._shapes: Dict[int, _Shape] = {}
        self._kinds, self._sizes = array("I"), array("Q")
        self._starts, self._held, self._labels = array("Q", [0]), array("i"), array("I")  # what is held by its codes

    def graph(self) -> Graph:
        self._read_references()
        held = Held(self._starts, self._held)
        self._add_unheld(Unheld(held, Held(array("Q", [0]), ()), self._reached_codes()))
        graph = Graph()
        graph.numbers = range(1, len(self._kinds) + 1)
        graph.kinds, graph.type_names, graph.sizes = self._kinds, self._types.texts, self._sizes
        graph.starts, graph.targets = self._starts, array("I", map((-1).__add__, self._held))
        graph.labels, graph.label_texts = self._labels, self._label_names.texts
        graph.roots = named_roots(self.named_roots())
        return graph

    def _read_references(self) -> None:
        """Notes of each object its type, its bytes, what it holds and under which labels, in the order of the dump."""
        data, each, fields, two_words = self.dump.data, self.codes.each, self._instance.size, 2 * self.dump.id_size
        of_class, to_class = struct.Struct(">%sI" % self.dump.id_code).unpack_from, self.dump.id_size + 4
        shapes, held, labels = self._shapes, self._held, self._labels
        add_kind, add_size, add_start = self._kinds.append, self._sizes.append, self._starts.append
        for place in self._in_steps("reading the references", self.kept_places):
            if data[place - 1] == INSTANCE:
                class_id, length = of_class(data, place + to_class)
                shape = shapes.get(class_id) or self._shape(class_id)
                layout = shape.layout
                if layout.unpack.size > length:
                    self._fields(place)  # refuses one that is too short
                add_kind(shape.kind)
                add_size(two_words + length)
                if shape.labels:
                    found: Sequence[int] = layout.unpack.unpack_from(data, place + fields)
                    codes = each(self._strong(layout, found) if layout.has_weak else found)
                    held.extend(filter(None, codes))
                    labels.extend(compress(shape.labels, codes))
                if shape.is_special:
                    self._add_each(self._classes_of(self._id.unpack_from(data, place)[0], class_id))
            else:
                add_kind(self._types.place(self._class_at(place)))
                add_size(self._size_at(place))
                if data[place - 1] == OBJECT_ARRAY:
                    self._add_array(place)
                elif data[place - 1] == CLASS:
                    self._add_each((label, to) for label, to, _ in self.holdings(place))
            add_start(len(held))

    def _shape(self, class_id: int) -> _Shape:
        layout = self._layout(class_id)
        labels = array("I", map(self._label_place, layout.labels))
        found = _Shape(self._types.place(self.dump.class_name(class_id)), layout, labels, class_id in self._special)
        self._shapes[class_id] = found
        return found

    def _label_place(self, label: str) -> int:
        return self._label_names.place(label_shape(label))

    def _strong(self, layout: Layout, found: Sequence[int]) -> List[int]:
        """The references of an instance with zeros for the weak ones, which are noted."""
        is_weak = self._weak_in(layout, found)
        self._held_weakly.update(self.codes.many(compress(found, is_weak)))
        return [0 if weak else to for to, weak in zip(found, is_weak)]

    def _add_array(self, place: int) -> None:
        class_id, elements = self._elements(place)
        codes = self.codes.many(elements)
        self._held.fromlist(codes)
        self._labels.extend(repeat(self._label_place("[*]"), len(codes)))
        if class_id in self._special:
            self._add_each([(TO_CLASS, class_id)])

    def _add_each(self, held: Iterable[Tuple[str, int]]) -> None:
        for label, to in held:
            code = self.codes.get(to)
            if code:
                self._held.append(code)
                self._labels.append(self._label_place(label))


def _kind_of_heap() -> Callable[[Dump, Wishes, Progress], Any]:
    if numpy_is_there():
        from . import whole_graph_numpy

        return whole_graph_numpy.WholeHeap
    return WholeHeap


def graph_of(file: BinaryIO, name: str, progress: Progress) -> Graph:
    """The whole heap of a dump as a graph; by numpy where it is there."""
    wishes = Wishes(parser_for("", "").parse_args(["--", name, ""]), limited=False)
    heap = _kind_of_heap()(Dump(file, name, progress), wishes, progress)
    heap.find_objects()
    found = heap.graph()
    del heap.left  # which leads back to the heap, so that it would stay in memory for a while
    return found

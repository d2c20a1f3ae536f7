"""The whole heap of a dump as a graph, read by numpy: many objects at a time."""
from array import array
from typing import Any, Iterator, List, Tuple

import numpy as np

from gcaudit_trace import TraceError
from gcaudit_trace.dumps.named_roots import named_roots
from gcaudit_trace.dumps.options import Wishes
from gcaudit_trace.graphs.graph import Graph, Names
from gcaudit_trace.graphs.paths import label_shape
from gcaudit_trace.progress import Progress

from .convert import TO_CLASS, Heap
from .held_by_jvm import Held, Unheld
from .reader import CLASS, INSTANCE, OBJECT_ARRAY, PRIMITIVE_ARRAY, PRIMITIVES, ROOTS, SIZES, Dump

_OBJECTS_AT_A_TIME = 1 << 17
_BYTES_AT_A_TIME = 1 << 20

Numbers = Any  # an array of numpy


class _SortedCodes:
    """The code of each object, its place in the dump counted from 1, by its identifier; 0 where it has none."""

    def __init__(self, numbers: Numbers) -> None:
        self._order = np.argsort(numbers, kind="stable").astype(np.uint32)
        self._sorted = numbers[self._order]

    def has_doubles(self) -> bool:
        return bool((self._sorted[1:] == self._sorted[:-1]).any())

    def get(self, number: int) -> int:
        place = int(np.searchsorted(self._sorted, np.uint64(number)))
        found = place < len(self._sorted) and int(self._sorted[place]) == number
        return int(self._order[place]) + 1 if found else 0

    def many(self, numbers: Numbers) -> Numbers:
        """The codes of these, with zeros."""
        places: Numbers = np.searchsorted(self._sorted, numbers)
        places[places == len(self._sorted)] = 0
        return np.where(self._sorted[places] == numbers, self._order[places] + 1, 0).astype(np.int32)


class WholeHeap(Heap):
    """The heap of a dump, of which nothing is left out."""

    def __init__(self, dump: Dump, wishes: Wishes, progress: Progress) -> None:
        super().__init__(dump, wishes, progress)
        self._bytes = np.frombuffer(dump.data, dtype=np.uint8)
        self._types, self._label_names = Names(), Names()
        self._class_ids: Numbers = np.zeros(0, dtype=np.uint64)

    def find_objects(self) -> None:
        """Numbers the objects, and notes the roots and the classes."""
        places, numbers, class_ids = array("Q"), array("Q"), array("Q")
        add_place, add_number, add_class = places.append, numbers.append, class_ids.append
        read_id, data = self._id.unpack_from, self.dump.data
        for tag, place, number, class_id in self.dump.records("reading the objects"):
            if tag in ROOTS:
                self.roots.append(self.dump.root(tag, place))
                continue
            if tag == CLASS:
                class_id = 0
                if number not in self.classes:
                    self.classes[number] = self.dump.class_dump(place)
            elif tag == PRIMITIVE_ARRAY:
                number = read_id(data, place)[0]
            add_place(place)
            add_number(number)
            add_class(class_id)
        of_numbers = np.frombuffer(numbers, dtype=np.uint64)
        if len(of_numbers) and not of_numbers.min():
            raise TraceError("%s is damaged: an object has the identifier 0" % self.dump.name)
        codes = _SortedCodes(of_numbers)
        self.kept_places, self._class_ids = places, np.frombuffer(class_ids, dtype=np.uint64)
        if codes.has_doubles():  # what stands there again is the same record
            _, first = np.unique(of_numbers, return_index=True)
            first.sort()
            codes, self._class_ids = _SortedCodes(of_numbers[first]), self._class_ids[first]
            self.kept_places = array("Q", np.frombuffer(places, dtype=np.uint64)[first].tobytes())
        self.codes = codes  # type: ignore[assignment]
        self._with_objects = {int(number) for number in np.unique(self._class_ids)}
        for class_id in self._with_objects:
            self._note_class(class_id)
        of_jvm = np.isin(self._class_ids, np.array(sorted(self._classes_of_jvm), dtype=np.uint64))
        self._of_jvm = array("Q", np.frombuffer(self.kept_places, dtype=np.uint64)[of_jvm].tobytes())
        self._relate_classes()

    def graph(self) -> Graph:
        graph = Graph()
        kinds, sizes, counts, held_codes, labels = [], [], [], array("i"), array("I")
        places = np.frombuffer(self.kept_places, dtype=np.uint64).astype(np.int64)
        for start in range(0, len(places), _OBJECTS_AT_A_TIME):
            end = min(start + _OBJECTS_AT_A_TIME, len(places))
            self.progress.at("reading the references", int(places[start]), self.dump.size)
            some = _Some(self, places[start:end], self._class_ids[start:end])
            kinds.append(some.kinds)
            sizes.append(some.sizes)
            held, of_held, of_labels = some.references()
            counts.append(np.bincount(held, minlength=end - start))
            held_codes.frombytes(of_held.tobytes())
            labels.frombytes(of_labels.tobytes())
            self.dump.forget_read(int(places[end - 1]))
        graph.numbers = range(1, len(places) + 1)
        graph.kinds, graph.sizes = _joined("I", kinds), _joined("Q", sizes)
        graph.starts = array("Q", [0])
        graph.starts.frombytes(
            np.cumsum(np.concatenate(counts or [np.zeros(0, dtype=np.int64)])).astype(np.uint64).tobytes()
        )
        self._add_unheld(Unheld(Held(graph.starts, held_codes), Held([0], []), self._reached_codes()))
        nodes = np.frombuffer(held_codes, dtype=np.int32)
        np.subtract(nodes, 1, out=nodes)  # in its place, without another array as large
        graph.targets, graph.labels = held_codes, labels
        graph.type_names, graph.label_texts = self._types.texts, self._label_names.texts
        graph.roots = named_roots(self.named_roots())
        return graph

    def note_held_weakly(self, numbers: Numbers) -> None:
        self._held_weakly.update(filter(None, self.codes.many(numbers).tolist()))  # type: ignore[attr-defined]

    def type_place(self, name: str) -> int:
        return self._types.place(name)

    def label_place(self, label: str) -> int:
        return self._label_names.place(label_shape(label))

    def read(self, places: Numbers, width: int) -> Numbers:
        """The numbers of so many bytes at these places."""
        found = np.empty(len(places), dtype=np.uint64)
        step = _BYTES_AT_A_TIME // width
        for start in range(0, len(places), step):
            raw = self._bytes[places[start : start + step, None] + np.arange(width)]
            found[start : start + step] = np.ascontiguousarray(raw).view(">u%d" % width).ravel()
        return found


def _joined(code: str, pieces: List[Numbers]) -> array:
    found = array(code)
    for piece in pieces:
        found.frombytes(piece.tobytes())
    return found


class _Some:
    """Some objects that follow on one another in a dump: their types, their bytes, and what they hold."""

    def __init__(self, heap: WholeHeap, places: Numbers, class_ids: Numbers) -> None:
        self._heap = heap
        self._places = places
        self._class_ids = class_ids
        self._id_size = heap.dump.id_size
        self.kinds = np.zeros(len(places), dtype=np.uint32)
        self.sizes = np.full(len(places), 2 * self._id_size, dtype=np.uint64)
        # The references so far, in pieces: who holds, counted from the first of these objects, the identifiers, the labels.
        self._found: List[Tuple[Numbers, Numbers, Numbers]] = []
        tags = heap._bytes[places - 1]
        try:
            self._instances(np.flatnonzero(tags == INSTANCE))
            self._arrays(np.flatnonzero(tags == OBJECT_ARRAY))
            self._primitives(np.flatnonzero(tags == PRIMITIVE_ARRAY))
            self._classes(np.flatnonzero(tags == CLASS))
        except IndexError:
            raise TraceError("%s is cut: its last record is not whole" % heap.dump.name) from None

    def references(self) -> Tuple[Numbers, Numbers, Numbers]:
        """Who holds, counted from the first of these objects, the codes of what is held, and the labels; in the order of the holders."""
        empty = np.zeros(0, dtype=np.uint64)
        self._found.append((empty, empty, empty))
        holders, numbers, labels = map(np.concatenate, zip(*self._found))
        codes: Numbers = self._heap.codes.many(numbers)  # type: ignore[arg-type]
        there = np.flatnonzero(codes)
        holders = holders[there].astype(np.int64)
        order = there[np.argsort(holders, kind="stable")]
        return np.sort(holders), codes[order], labels[order].astype(np.uint32)

    def _add(self, holders: Numbers, numbers: Numbers, label: int) -> None:
        self._found.append((holders.astype(np.uint64), numbers, np.full(len(holders), label, dtype=np.uint64)))

    def _by_class(self, which: Numbers) -> Iterator[Tuple[int, Numbers]]:
        """The classes of these objects, each with its objects."""
        order = which[np.argsort(self._class_ids[which], kind="stable")]
        ids, starts = np.unique(self._class_ids[order], return_index=True)
        ends = [*starts[1:], len(order)]
        for class_id, start, end in zip(ids, starts, ends):
            yield int(class_id), order[start:end]

    def _instances(self, which: Numbers) -> None:
        heap, id_size = self._heap, self._id_size
        lengths = heap.read(self._places[which] + 2 * id_size + 4, 4)
        self.sizes[which] += lengths
        shortest = np.zeros(len(self._places), dtype=np.uint64)
        shortest[which] = lengths
        for class_id, some in self._by_class(which):
            layout = heap._layout(class_id)
            name = heap.dump.class_name(class_id)
            if layout.unpack.size > int(shortest[some].min()):
                raise TraceError("%s is damaged: an object of %s is too short" % (heap.dump.name, name))
            self.kinds[some] = heap.type_place(name)
            first = self._places[some] + 2 * id_size + 8
            columns = [heap.read(first + offset, id_size) for offset in layout.offsets]
            due = np.zeros(len(some), dtype=bool)
            if layout.has_weak and heap._in_queue:
                for column in columns:
                    due |= column == heap._in_queue
            for label, column, weak in zip(layout.labels, columns, layout.weak):
                strong = due if weak else slice(None)
                self._add(some[strong], column[strong], heap.label_place(label))
                if weak:
                    heap.note_held_weakly(column[~due])
            self._to_classes(class_id, some)

    def _to_classes(self, class_id: int, some: Numbers) -> None:
        """The references of objects to their class, and of loaders to the classes that they defined."""
        heap = self._heap
        if class_id not in heap._special:
            return
        if class_id in heap.relations.led_to:
            self._add(some, np.full(len(some), class_id, dtype=np.uint64), heap.label_place(TO_CLASS))
        for one in some:
            number = heap._id.unpack_from(heap.dump.data, int(self._places[one]))[0]
            if number in heap.relations.defined:
                self._add_each(int(one), heap.relations.defined[number])

    def _add_each(self, one: int, held: List[Tuple[str, int]]) -> None:
        for label, to in held:
            self._add(np.array([one]), np.array([to], dtype=np.uint64), self._heap.label_place(label))

    def _arrays(self, which: Numbers) -> None:
        heap, id_size = self._heap, self._id_size
        lengths: Numbers = heap.read(self._places[which] + id_size + 4, 4).astype(np.int64)
        self.sizes[which] += (lengths * id_size).astype(np.uint64)
        starts = self._places[which] + 2 * id_size + 8
        whole = int(lengths.sum())
        in_array = np.arange(whole) - np.repeat(np.cumsum(lengths) - lengths, lengths)
        numbers = heap.read(np.repeat(starts, lengths) + in_array * id_size, id_size)
        self._add(np.repeat(which, lengths), numbers, heap.label_place("[*]"))
        for class_id, some in self._by_class(which):
            self.kinds[some] = heap.type_place(heap.dump.class_name(class_id))
            if class_id in heap._special:
                self._add(some, np.full(len(some), class_id, dtype=np.uint64), heap.label_place(TO_CLASS))

    def _primitives(self, which: Numbers) -> None:
        heap, id_size = self._heap, self._id_size
        lengths = heap.read(self._places[which] + id_size + 4, 4)
        codes = heap._bytes[self._places[which] + id_size + 8]
        for code, name in PRIMITIVES.items():
            some = which[codes == code]
            self.kinds[some] = heap.type_place(name + "[]")
            self.sizes[some] += lengths[codes == code] * np.uint64(SIZES[code])

    def _classes(self, which: Numbers) -> None:
        heap = self._heap
        for one in which:
            number = heap._id.unpack_from(heap.dump.data, int(self._places[one]))[0]
            self.kinds[one] = heap.type_place("class " + heap.dump.class_name(number))
            self._add_each(int(one), [*heap.classes[number].held, *heap.relations.more_held.get(number, ())])

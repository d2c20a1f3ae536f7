"""From an HPROF dump to a trace: which objects are kept, what they hold, and which roots there are."""
import argparse
import struct
from array import array
from itertools import chain
from typing import BinaryIO, Dict, Iterable, Iterator, List, NamedTuple, Sequence, Set, Tuple

from gcaudit_trace import TraceError
from gcaudit_trace.dumps.command import say_left_out
from gcaudit_trace.dumps.options import PLUS, Wishes
from gcaudit_trace.dumps.output import DumpFile, output_of
from gcaudit_trace.graphs.left_out import LeftOut
from gcaudit_trace.progress import Progress
from gcaudit_trace.traces.limits import MOST_ROOTS

from .classes import CLASS_ROOT, ELEMENT, Relations, is_thread, relations_of
from .codes import Codes
from .held_by_jvm import FILLERS, OF_ANY_CLASS, Held, Unheld, gathered
from .reader import (
    CLASS,
    HELD_BY_JVM,
    INSTANCE,
    OBJECT,
    OBJECT_ARRAY,
    PRIMITIVE_ARRAY,
    PRIMITIVES,
    ROOTS,
    ROOTS_AND_MORE,
    SIZES,
    ClassDump,
    Dump,
    Root,
)
from .threads import thread_names

_OBJECT = "java.lang.Object"
_REFERENCE = "java.lang.ref.Reference"
_QUEUE = "java.lang.ref.ReferenceQueue"
# What a class holds in fields of which a dump doesn't tell, and nothing else holds: values of a ClassValue, annotations, generic types.
_HELD_BY_CLASSES = frozenset(
    {
        "java.lang.ClassValue$ClassValueMap",
        "java.lang.Class$AnnotationData",
        "sun.reflect.annotation.AnnotationType",
        "sun.reflect.generics.repository.ClassRepository",
    }
)
_THREAD_ROOT = next(tag for tag, (kind, _, _) in ROOTS.items() if kind == "thread")
_OF_CLASSES = -1  # in place of the identifier of the class of classes
TO_CLASS, _TO_LOADER = "<class>", "(class loader)"
_HOLD_PRIMITIVES_ALONE = frozenset({"java.lang.String"})


class Layout(NamedTuple):
    """Where the references stand in the instances of a class."""

    unpack: struct.Struct
    labels: Tuple[str, ...]
    weak: Tuple[bool, ...]
    has_weak: bool
    offsets: Tuple[int, ...]  # of the references among the bytes of an instance's fields


class Heap:
    """The heap of a dump, as far as it is kept."""

    def __init__(self, dump: Dump, wishes: Wishes, progress: Progress) -> None:
        self.dump = dump
        self.wishes = wishes
        self.progress = progress
        self.classes: Dict[int, ClassDump] = {}
        self.codes = Codes()  # of each kept object and of left-out ones that may hold something, by identifier
        self.kept_places = array("Q")  # where the record of each kept object stands
        self._unshared: Set[int] = set()  # the codes of kept objects that are asserted unshared
        self.left = LeftOut(self._label_of, self._unshared)
        self.left_places = array("Q")
        self.left_out: Dict[str, int] = {}  # how many objects of each class are left out
        self._named_counts: Dict[str, int] = {}  # how many are kept
        self.roots: List[Root] = []
        self.weak_lost = 0
        self.relations = Relations(set(), {}, {}, [], set(), set(), 0)
        self._special: Set[
            int
        ] = set()  # the classes of which objects lead to their class or to the classes that they defined
        self._classes_of_jvm: Set[
            int
        ] = set()  # of threads, and of what classes hold in fields of which a dump doesn't tell
        self._of_jvm = array("Q")  # where the records of their objects stand
        self._rooted_codes: Dict[int, int] = {}  # of left-out classes that a root names
        self.classes_as_roots = 0  # how many classes are roots in place of references from their objects
        self._with_objects: Set[int] = set()  # the classes that have objects
        self._held_weakly: Set[int] = set()  # the codes of what weak references lead to
        self._in_queue = 0  # what a reference has for a queue while it waits in one
        self._labels_of: Tuple[int, Dict[int, str]] = (-1, {})  # of the left-out object that was asked last, by codes
        self._layouts: Dict[int, Layout] = {}
        self._keeps: Dict[int, bool] = {}
        self._may_hold_of: Dict[int, bool] = {}
        self._unshared_classes: Set[int] = set()
        self._id = struct.Struct(">" + dump.id_code)
        self._instance = struct.Struct(">%sI%sI" % (dump.id_code, dump.id_code))
        self._primitive = struct.Struct(">%sIIB" % dump.id_code)
        self._array = struct.Struct(">%sII%s" % (dump.id_code, dump.id_code))

    # ---- the first time through: which objects are there

    def find_objects(self) -> None:
        """Numbers the kept objects, and notes the roots and the classes."""
        add, places, keeps, keeps_class = self.codes.add, self.kept_places, self._keeps, self._keeps_class
        left_places, may_hold_of, unshared_classes = self.left_places, self._may_hold_of, self._unshared_classes
        counts: Dict[int, int] = {}
        primitive: Dict[int, int] = {}
        left_classes: Dict[int, int] = {}
        with_objects, of_jvm = self._with_objects.add, self._classes_of_jvm
        for tag, place, number, class_id in self.dump.records("reading the objects"):
            if tag != INSTANCE:
                if tag == PRIMITIVE_ARRAY:
                    if self.wishes.limited:
                        primitive[number] = primitive.get(number, 0) + 1
                    elif add(self._id.unpack_from(self.dump.data, place)[0], len(places) + 1):
                        places.append(place)
                    continue
                if tag in ROOTS:
                    self.roots.append(self.dump.root(tag, place))
                    continue
                if tag == CLASS and number not in self.classes:
                    self.classes[number] = self.dump.class_dump(place)
            if not number:
                raise TraceError("%s is damaged: an object has the identifier 0" % self.dump.name)
            # What has a code already is the same record again.
            if tag == CLASS:
                is_kept, class_id = self.wishes.keeps(self.dump.class_name(number)), _OF_CLASSES
            else:
                is_kept = keeps[class_id] if class_id in keeps else keeps_class(class_id)
                with_objects(class_id)
                if class_id in of_jvm:
                    self._of_jvm.append(place)
            if is_kept:
                if add(number, len(places) + 1):
                    places.append(place)
                    counts[class_id] = counts.get(class_id, 0) + 1
                    if class_id in unshared_classes:
                        self._unshared.add(len(places))
            elif tag != INSTANCE or (may_hold_of[class_id] if class_id in may_hold_of else self._may_hold(class_id)):
                if add(number, -1 - len(left_places)):
                    left_places.append(place)
                    left_classes[class_id] = left_classes.get(class_id, 0) + 1
            else:
                left_classes[class_id] = left_classes.get(class_id, 0) + 1
        self.left.add(len(left_places))
        self.left_out = self._by_name(left_classes)
        for code, count in primitive.items():
            self.left_out[PRIMITIVES[code] + "[]"] = count
        self._named_counts = self._by_name(counts)
        for found in (self._named_counts, self.left_out):
            for name, count in found.items():
                self.wishes.counts[name] = self.wishes.counts.get(name, 0) + count
        self.wishes.need_known(
            {self.dump.class_name(class_id) for class_id in chain(self.dump.class_names, self.classes)}
        )
        self._refuse_interfaces()
        self.wishes.need_room(len(places), self._named_counts)
        self._relate_classes()

    def _refuse_interfaces(self) -> None:
        """Refuses an interface in place of a class with its subclasses: whatever implements it, there would be no object of it.

        A dump doesn't say what is an interface. It has no fields, and no class has it for its superclass.
        """
        if self.wishes.may_be_missing:
            return
        with_subclasses = {found.superclass for found in self.classes.values()}
        may_be: Dict[str, bool] = {}
        for number, found in self.classes.items():
            name = self.dump.class_name(number)
            if name + PLUS in self.wishes.named:
                is_class = bool(found.fields or number in with_subclasses or self.wishes.counts.get(name))
                is_class = is_class or self.dump.class_name(found.superclass) != _OBJECT
                may_be[name] = may_be.get(name, True) and not is_class
        for name in sorted(name for name, is_interface in may_be.items() if is_interface):
            raise TraceError(
                "%s may be an interface: it has no fields, no objects and no subclasses, and a dump doesn't say which classes "
                "implement an interface. Name these instead; if it is a class, --may-be-missing allows it" % name
            )

    def _by_name(self, counts: Dict[int, int]) -> Dict[str, int]:
        """Counts by the names of classes, from those by identifiers."""
        found: Dict[str, int] = {}
        for class_id, count in counts.items():
            name = "java.lang.Class" if class_id == _OF_CLASSES else self.dump.class_name(class_id)
            found[name] = found.get(name, 0) + count
        return found

    def _relate_classes(self) -> None:
        """Finds which objects lead to classes, and the roots that classes have."""
        self._add_roots_of_jvm()
        self.relations = relations_of(self.classes, self.dump.class_name, self._class_of, self.roots)
        self.roots += self.relations.roots
        self._special = {self._class_id_of(loader) for loader in self.relations.defined}
        if self.wishes.owners:
            # Through its class an owner would find its ownees, and so would what it holds.
            roots = [Root(CLASS_ROOT, number, 0, 0) for number in sorted(self.relations.led_to & self._with_objects)]
            self.roots += roots
            self.classes_as_roots = len(roots)
        else:
            self._special |= self.relations.led_to
        for number in self.relations.is_rooted:
            code = self.codes.get(number)
            if code < 0:
                # Only its root leads to it: a reference from elsewhere would say nothing, and be a way from each object to all statics.
                self._rooted_codes[number] = code
                self.codes.remove(number)
        queue = next((found for number, found in self.classes.items() if self.dump.class_name(number) == _QUEUE), None)
        self._in_queue = next((to for label, to in queue.held if label == ".ENQUEUED"), 0) if queue is not None else 0

    def _add_roots_of_jvm(self) -> None:
        """Roots for the threads that run and that the dump doesn't name, as those of the JVM's compiler, and for what classes hold unseen."""
        named = {root.target for root in self.roots if root.kind == _THREAD_ROOT}
        for place in self._of_jvm:
            number, _, class_id, _ = self._instance.unpack_from(self.dump.data, place)
            if self.dump.class_name(class_id) in _HELD_BY_CLASSES:
                self.roots.append(Root(HELD_BY_JVM, number, 0, 0))
            elif number not in named and self._runs(place, class_id):
                self.roots.append(Root(_THREAD_ROOT, number, -number, 0))  # of a serial number that no other thread has

    def _runs(self, place: int, class_id: int) -> bool:
        """Whether a thread, the record of which stands there, has a thread of the system: its field `eetop` isn't 0."""
        at = place + self._instance.size
        while class_id in self.classes:
            for name, kind in self.classes[class_id].fields:
                if self.dump.class_name(class_id) == "java.lang.Thread" and self.dump.text(name) == "eetop":
                    return any(self.dump.data[at : at + SIZES.get(kind, 0)])
                at += self.dump.id_size if kind == OBJECT else SIZES[kind]
            class_id = self.classes[class_id].superclass
        return False

    def _place_of(self, number: int) -> int:
        """Where the record of an object stands that is kept, or may hold something; 0 where there is none."""
        code = self.codes.get(number)
        return self._place_of_code(code) if code else 0

    def _place_of_code(self, code: int) -> int:
        """Where the record of an object stands that has this code."""
        return self.kept_places[code - 1] if code > 0 else self.left_places[-1 - code]

    def _class_of(self, number: int) -> str:
        """The class of an object that is kept, or may hold something; empty where it isn't in the dump."""
        place = self._place_of(number)
        return self._class_at(place) if place else ""

    def _class_id_of(self, number: int) -> int:
        """The identifier of an instance's class; 0 where it isn't in the dump."""
        place = self._place_of(number)
        return (
            self._instance.unpack_from(self.dump.data, place)[2]
            if place and self.dump.data[place - 1] == INSTANCE
            else 0
        )

    def _may_hold(self, class_id: int) -> bool:
        """Whether instances of the class may lead to something other than arrays of primitives, as far as is known by now."""
        found = self.dump.class_name(class_id) not in _HOLD_PRIMITIVES_ALONE
        try:
            found = found and bool(self._layout(class_id).labels or self.classes[class_id].loader)
        except TraceError:
            return True  # a class of it comes later in the dump
        self._may_hold_of[class_id] = found
        return found

    def _superclasses(self, class_id: int) -> Iterator[str]:
        """The names of a class's superclasses, as far as they are known by now."""
        seen = {class_id}
        while class_id in self.classes:
            class_id = self.classes[class_id].superclass
            if not class_id or class_id in seen:
                return
            seen.add(class_id)
            yield self.dump.class_name(class_id)

    def _note_class(self, class_id: int) -> None:
        """Notes a class of which objects may be held by the JVM itself."""
        name = self.dump.class_name(class_id)
        if name in _HELD_BY_CLASSES or is_thread(class_id, self.classes, self.dump.class_name):
            self._classes_of_jvm.add(class_id)

    def _keeps_class(self, class_id: int) -> bool:
        name = self.dump.class_name(class_id)
        self.wishes.superclasses.setdefault(name, set()).update(self._superclasses(class_id))
        if self.wishes.is_unshared(name):
            self._unshared_classes.add(class_id)
        self._note_class(class_id)
        found = self._keeps[class_id] = self.wishes.keeps(name)
        return found

    def _label_of(self, place: int, edge: int, code: int) -> str:
        """The label under which a left-out object holds another."""
        if self._labels_of[0] != place:
            labels: Dict[int, str] = {}
            for label, to, weak in self.holdings(self.left_places[place]):
                if not weak:
                    labels.setdefault(self.codes.get(to), label)
            self._labels_of = place, labels
        return self._labels_of[1].get(code, "")

    # ---- what an object holds

    def holdings(self, place: int) -> List[Tuple[str, int, bool]]:
        """What the object whose record stands there holds: label, identifier, whether weakly. Empty places are left out."""
        data, tag = self.dump.data, self.dump.data[place - 1]
        if tag == INSTANCE:
            number, _, class_id, _ = self._instance.unpack_from(data, place)
            layout, found = self._fields(place)
            held = [one for one in zip(layout.labels, found, self._weak_in(layout, found)) if one[1]]
            return (
                held + [(label, to, False) for label, to in self._classes_of(number, class_id)]
                if class_id in self._special
                else held
            )
        if tag == OBJECT_ARRAY:
            class_id, elements = self._elements(place)
            held = [("[%d]" % at, to, False) for at, to in enumerate(elements) if to]
            return held + [(TO_CLASS, class_id, False)] if class_id in self._special else held
        if tag == PRIMITIVE_ARRAY:
            return []
        number = self._id.unpack_from(data, place)[0]
        return [
            (label, to, False)
            for label, to in chain(self.classes[number].held, self.relations.more_held.get(number, ()))
        ]

    def _classes_of(self, number: int, class_id: int) -> List[Tuple[str, int]]:
        """The classes to which an instance leads: its own, and those that it defined."""
        own = [(TO_CLASS, class_id)] if class_id in self.relations.led_to and not self.wishes.owners else []
        return own + self.relations.defined.get(number, [])

    def _weak_in(self, layout: Layout, found: Sequence[int]) -> Sequence[bool]:
        """Which of the references of an instance are weak. A reference that waits in its queue with what it refers to, until that is finalized, holds it."""
        return (False,) * len(found) if layout.has_weak and self._in_queue and self._in_queue in found else layout.weak

    def _held_by(self, step: str, places: array) -> Iterator[List[int]]:
        """For each of the objects whose records stand there the codes of what it holds strongly."""
        data, layouts, many, special = self.dump.data, self._layouts, self.codes.many, self._special
        of_class, size = struct.Struct(">%sI" % self.dump.id_code).unpack_from, self._instance.size
        to_class = self.dump.id_size + 4
        for place in self._in_steps(step, places):
            if data[place - 1] == INSTANCE:
                class_id, length = of_class(data, place + to_class)
                layout = layouts.get(class_id)
                if layout is None or layout.unpack.size > length:
                    layout = self._fields(place)[0]  # refuses one that is too short
                found: Sequence[int] = layout.unpack.unpack_from(data, place + size)
                if layout.has_weak:
                    is_weak = self._weak_in(layout, found)
                    self._held_weakly.update(many(to for to, weak in zip(found, is_weak) if weak))
                    found = [to for to, weak in zip(found, is_weak) if not weak]
                if class_id in special:
                    found = [
                        *found,
                        *(to for _, to in self._classes_of(self._id.unpack_from(data, place)[0], class_id)),
                    ]
                yield many(found)
            elif data[place - 1] == OBJECT_ARRAY:
                class_id, found = self._elements(place)
                yield many((*found, class_id) if class_id in special else found)
            else:
                yield many(self._held_by_class(self._id.unpack_from(data, place)[0]))

    def _held_by_class(self, number: int) -> Iterator[int]:
        """What a class holds, where that goes on through it: not the loader that lasts anyway, through which each class would lead to all others."""
        for label, to in chain(self.classes[number].held, self.relations.more_held.get(number, ())):
            if label != _TO_LOADER or to not in self.relations.lasting_loaders:
                yield to

    def _fields(self, place: int) -> Tuple[Layout, Tuple[int, ...]]:
        _, _, class_id, size = self._instance.unpack_from(self.dump.data, place)
        layout = self._layout(class_id)
        if layout.unpack.size > size:
            raise TraceError(
                "%s is damaged: an object of %s is too short" % (self.dump.name, self.dump.class_name(class_id))
            )
        return layout, layout.unpack.unpack_from(self.dump.data, place + self._instance.size)

    def _elements(self, place: int) -> Tuple[int, Tuple[int, ...]]:
        """The class of an array of objects, and its elements."""
        _, _, length, class_id = self._array.unpack_from(self.dump.data, place)
        return class_id, struct.unpack_from(
            ">%d%s" % (length, self.dump.id_code), self.dump.data, place + self._array.size
        )

    def _layout(self, class_id: int) -> Layout:
        """The places of the references in an instance: the fields of the class, then those of its superclass, and so on."""
        known = self._layouts.get(class_id)
        if known is not None:
            return known
        form, labels, weak, at = [">"], [], [], class_id
        offsets, offset = [], 0
        id_size, seen = self.dump.id_size, set()
        while at:
            found = self.classes.get(at)
            if found is None or at in seen:
                raise TraceError("%s is damaged: the class 0x%x is not in it" % (self.dump.name, at))
            seen.add(at)
            is_reference = self.dump.class_name(at) == _REFERENCE
            for name, kind in found.fields:
                if kind != OBJECT:
                    form.append("%dx" % SIZES[kind])
                    offset += SIZES[kind]
                    continue
                offsets.append(offset)
                offset += id_size
                text = self.dump.text(name)
                form.append(self.dump.id_code)
                labels.append("." + text)
                weak.append(is_reference and text == "referent")
            at = found.superclass
        while len(form) > 1 and form[-1].endswith("x"):
            form.pop()
        layout = Layout(struct.Struct("".join(form)), tuple(labels), tuple(weak), any(weak), tuple(offsets))
        self._layouts[class_id] = layout
        return layout

    # ---- where something is left out: how references go on through it

    def pass_over(self) -> int:
        """Decides what of the left-out objects stays as joints, and how many these are."""
        left, kept = self.left, len(self.kept_places)
        left.hold(self._held_by("reading what is left out", self.left_places))
        held = gathered(self._held_by("reading what is kept", self.kept_places), kept)
        self._add_unheld(Unheld(held, Held(*left.held()), self._reached_codes()))
        left.take_kept(held.codes)
        for root in self.roots:
            left.take_root(self._code_of_root(root))
        stay = left.settle(kept, self.progress.following)
        self.wishes.need_room(kept + stay, self._named_counts)
        return stay

    def _reached_codes(self) -> Iterator[int]:
        """The codes of what roots name, and of what is held weakly."""
        yield from self._held_weakly
        yield from (code for code in map(self._code_of_root, self.roots) if code)

    def _add_unheld(self, unheld: Unheld) -> None:
        """Adds roots for what no reference leads to in a dump of live objects. Each hidden class may hold one object more than others."""
        found = unheld.origins(self.relations.hidden, lambda code: not self._is_of_any_class(code))
        named = [code for code in found if self._class_at(self._place_of_code(code)) not in FILLERS]
        named.sort(key=self._is_of_any_class)  # what isn't comes first, if there is no room for all
        for code in named[: max(MOST_ROOTS - len(self.roots), 0)]:
            number = self._id.unpack_from(self.dump.data, self._place_of_code(code))[0]
            self.roots.append(Root(HELD_BY_JVM, number, 0, 0))

    def _is_of_any_class(self, code: int) -> bool:
        """Whether each class may hold such an object in a field of which a dump doesn't tell, or a collector leaves it."""
        place = self._place_of_code(code)
        if self.dump.data[place - 1] == OBJECT_ARRAY:
            return self._is_enumeration(self._elements(place)[0])  # an array of its constants
        return self._class_at(place) in OF_ANY_CLASS | FILLERS

    def _is_enumeration(self, array_class: int) -> bool:
        """Whether the elements of such arrays are constants of an enumeration."""
        return any(
            label == ELEMENT and "java.lang.Enum" in self._superclasses(element)
            for label, element in self.relations.more_held.get(array_class, ())
        )

    def _in_steps(self, step: str, places: array) -> Iterator[int]:
        """The places, with progress told; what was read of the file needs no memory any longer."""
        for start in range(0, len(places), 1 << 16):
            self.progress.at(step, places[start], self.dump.size)
            self.dump.forget_read(places[start])
            yield from places[start : start + (1 << 16)]

    # ---- the trace

    def write(self, out: DumpFile) -> None:
        """Writes the kept objects, and behind them the joints."""
        for place in self._in_steps("writing the objects", self.kept_places):
            out.object(self._class_at(place), self._size_at(place), self._resolved(self.holdings(place)))
        for joint in self.left.staying():
            out.joint(self._class_at(self.left_places[joint.place]), joint)

    def _class_at(self, place: int) -> str:
        """The class of the object whose record stands there; of a class, the word and its name."""
        data, tag = self.dump.data, self.dump.data[place - 1]
        if tag == CLASS:
            return "class " + self.dump.class_name(self._id.unpack_from(data, place)[0])
        if tag == INSTANCE:
            return self.dump.class_name(self._instance.unpack_from(data, place)[2])
        if tag == PRIMITIVE_ARRAY:
            return PRIMITIVES[self._primitive.unpack_from(data, place)[3]] + "[]"
        return self.dump.class_name(self._array.unpack_from(data, place)[3])

    def _size_at(self, place: int) -> int:
        """The bytes of what its record stands for: those of its fields or elements, and of a head of two words."""
        data, tag, head = self.dump.data, self.dump.data[place - 1], 2 * self.dump.id_size
        if tag == INSTANCE:
            return head + self._instance.unpack_from(data, place)[3]
        if tag == OBJECT_ARRAY:
            return head + self.dump.id_size * self._array.unpack_from(data, place)[2]
        if tag == PRIMITIVE_ARRAY:
            _, _, length, kind = self._primitive.unpack_from(data, place)
            return head + SIZES[kind] * length
        return head

    def _resolved(self, held: List[Tuple[str, int, bool]]) -> List[Tuple[str, int, bool]]:
        """What it holds by numbers in the trace: what is left out is passed over."""
        found, code_of = [], self.codes.get
        for label, to, weak in held:
            code = code_of(to)
            if code > 0:
                found.append((label, code, weak))
            elif weak:
                self.weak_lost += 1
            elif code < 0:
                found += self.left.through(code, label)
        return found

    def named_roots(self) -> Iterator[Tuple[str, int]]:
        """The roots by kind and name, as far as they lead to what is in the trace."""
        stack_of = {root.thread: root.frame for root in self.roots if root.kind == _THREAD_ROOT}
        names = thread_names(self.dump, self.classes, dict(self._thread_texts()))
        for root in self.roots:
            code = self._code_of_root(root)
            for number in self.left.numbers_of(code) if code else ():
                yield self._root_name(root, stack_of, names), number

    def _code_of_root(self, root: Root) -> int:
        """The code of what a root names; 0 where it is neither kept nor may hold something."""
        return self.codes.get(root.target) or self._rooted_codes.get(root.target, 0)

    def _thread_texts(self) -> Iterator[Tuple[int, int]]:
        """The serial number of each thread, and the identifier of the text that is its name."""
        for root in self.roots:
            code = self.codes.get(root.target)
            if code and root.kind == _THREAD_ROOT:
                place = self.kept_places[code - 1] if code > 0 else self.left_places[-1 - code]
                yield from ((root.thread, to) for label, to, _ in self.holdings(place) if label == ".name")

    def _root_name(self, root: Root, stack_of: Dict[int, int], names: Dict[int, str]) -> str:
        kind, _, numbers = ROOTS_AND_MORE[root.kind]
        if kind == "class":
            return "class " + self.dump.class_name(root.target)
        thread = names.get(root.thread, str(root.thread))
        if kind == "thread":
            return "thread " + thread
        if numbers:
            frame = (
                " " + self.dump.frame_name(stack_of.get(root.thread, 0), root.frame)
                if numbers == 2 and root.frame < 1 << 31
                else ""
            )
            return "%s%s (thread %s)" % (kind, frame, thread)
        return kind


def convert(file: BinaryIO, asked: argparse.Namespace, progress: Progress) -> None:
    """Writes the trace of a dump, or the snapshot, by the words of the command line."""
    wishes = Wishes(asked)
    heap = Heap(Dump(file, asked.dump, progress), wishes, progress)
    heap.find_objects()
    stay = heap.pass_over()
    say_left_out(heap.left_out, stay, heap.left, wishes, progress)
    with output_of(asked, wishes) as out:
        heap.write(out)
        if heap.weak_lost:
            progress.say("%d weak references to objects that are left out have no slot" % heap.weak_lost)
        if heap.classes_as_roots:
            progress.say(
                "%d classes are roots, beside --owned-by, in place of the references from their objects (<class>)"
                % heap.classes_as_roots
            )
        out.finish(heap.named_roots(), progress)

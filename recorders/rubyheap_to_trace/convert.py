"""From a dump of ObjectSpace.dump_all to a trace: lines are objects, references are slots. Weak references aren't in a dump at all."""
import argparse
from array import array
from itertools import accumulate
from typing import BinaryIO, Dict, Iterator, List, Protocol, Set, Tuple

from gcaudit_trace.dumps.command import say_left_out
from gcaudit_trace.dumps.options import Wishes
from gcaudit_trace.dumps.output import output_of
from gcaudit_trace.graphs.graph import Names
from gcaudit_trace.graphs.left_out import LeftOut, Staying
from gcaudit_trace.progress import Progress

from .classes import Classes, RubyClass
from .labels import CLASS, STACKS, Labels, key_text
from .reader import DumpReader, Record

# Plain values: they hold nothing but parts of themselves, where they have no instance variables.
PLAIN = frozenset({"STRING", "SYMBOL", "FLOAT", "BIGNUM", "COMPLEX", "RATIONAL", "REGEXP", "MATCH"})
CLASS_TYPES = frozenset({"CLASS", "MODULE", "ICLASS"})
_INTERNAL = {
    "env": "(environment)",
    "ment": "(method)",
    "iseq": "(code)",
    "cref": "(scope)",
    "constcache": "(constant cache)",
    "callcache": "(call cache)",
    "callinfo": "(call)",
    "ifunc": "(block in C)",
}
# Internal objects that hold something where others have their class; a dump doesn't tell that among their references.
_HOLD_AS_CLASS = frozenset({"constcache", "ment", "env", "svar", "cref", "iseq"})
_NAMES = "NAMES"  # a line of gcaudit's library: what names an object gives to what it refers to
_OF_GLOBALS = "globals"
_GLOBAL_TABLE = "global_tbl"


class Output(Protocol):
    """What takes the objects of a dump: a file, or a graph in memory."""

    def object(self, class_name: str, size: int, contents: List[Tuple[str, int, bool]]) -> None:
        ...

    def joint(self, class_name: str, joint: Staying) -> None:
        ...


Kind = Tuple[str, str, int]  # the type, the kind of structure, and the address of the class; of a class its own


class Heap:
    """The objects of a dump as arrays, in the order of its lines."""

    def __init__(self, file: BinaryIO, name: str, wishes: Wishes, progress: Progress) -> None:
        self.reader = DumpReader(file, name, progress)
        self.wishes = wishes
        self.progress = progress
        self.nodes: Dict[int, int] = {}  # by address
        self.classes = Classes()
        # Of each object:
        self.kinds = array("I")  # a place among `_kind_keys`
        self._has_references = bytearray()
        self.codes = array("i")  # as in `left`; 0 where it is neither kept nor left out
        self.kept = 0
        self._unshared: Set[int] = set()  # the codes of kept objects that are asserted unshared
        self.left = LeftOut(self._label_of, self._unshared)
        self._left_labels = array("I")  # of each reference that a left-out object holds
        self._left_kinds: List[int] = []  # the kind of each left-out object
        self.left_out: Dict[str, int] = {}  # how many objects of each class are left out
        self._labels = Names()
        self._kind_keys: List[Kind] = []
        self._kind_places: Dict[Kind, int] = {}
        self._class_names: List[str] = []  # of each kind
        self._class_addresses: List[int] = []  # of each kind the class that its objects hold; 0 where that lasts anyway
        self._roots: List[Tuple[str, List[int]]] = []
        self._texts: Dict[int, str] = {}  # of what may be a key, by address
        self._blocks: Dict[int, List[int]] = {}  # by address what procs and environments refer to
        self._names = _GivenNames()
        self._global_names: Dict[int, str] = {}
        self._constants: Set[int] = set()  # addresses of what constants of lasting classes lead to
        self._label_maker = Labels(self.kind_at, self._texts)

    # ---- the first time through: what there is

    def read(self) -> None:
        for record in self.reader.records("reading the objects"):
            kind = record["type"]
            if kind == "ROOT":
                self._roots.append((str(record.get("root")), self.reader.references(record)))
            elif kind == _NAMES:
                self._take_names(record)
            else:
                self._take_object(record)
        if not self._roots or not self.nodes:
            raise self.reader.unknown()
        self.classes.find_lasting()
        self._constants = self.classes.lasting_references()
        self._names.settle(self.nodes, self._environments)
        self._choose()

    def _take_object(self, record: Record) -> None:
        address = self.reader.address(record.get("address"))
        self.nodes[address] = len(self.kinds)
        kind = record["type"]
        class_address = self.reader.address(record.get("class", "0x0"))
        if kind in CLASS_TYPES:
            self._take_class(address, class_address, record)
            class_address = address
        elif kind == "IMEMO":
            class_address = 0
        detail = record.get("imemo_type") or record.get("struct") or ""
        self.kinds.append(self._place_of((kind, detail, class_address)))
        self._has_references.append("references" in record or detail in _HOLD_AS_CLASS)
        text = key_text(record)
        if text is not None:
            self._texts[address] = text
        if detail in ("proc", "env"):
            self._blocks[address] = self.reader.references(record)

    def _take_class(self, address: int, class_address: int, record: Record) -> None:
        superclass = self.reader.address(record.get("superclass", "0x0"))
        name = record.get("name") or ""
        found = RubyClass(record["type"], name, class_address, superclass, bool(record.get("singleton")))
        if name:
            found.references.extend(self.reader.references(record))
        self.classes.add(address, found)

    def _place_of(self, key: Kind) -> int:
        found = self._kind_places.get(key)
        if found is None:
            found = self._kind_places[key] = len(self._kind_keys)
            self._kind_keys.append(key)
        return found

    def _take_names(self, record: Record) -> None:
        """Takes the names that the library gives: addresses of what is held, each with its label."""
        names = record.get("names")
        if not isinstance(names, list) or len(names) % 2:
            raise self.reader.unknown()
        given = [(self.reader.address(held), str(label)) for held, label in zip(names[::2], names[1::2])]
        if record.get("of") == _OF_GLOBALS:
            self._global_names.update(given)
        else:
            self._names.add(self.reader.address(record.get("of")), given)

    def _environments(self, address: int) -> Iterator[int]:
        """The environments of a proc, from the inner one out: the addresses of what holds its variables."""
        seen = {address}
        work = [address]
        while work:
            for held in self._blocks.get(work.pop(), ()):
                if held not in seen and self.kind_at(held) == "env":
                    seen.add(held)
                    work.append(held)
                    yield held

    def kind_at(self, address: int) -> str:
        """The kind of the internal object at an address, or the type of another; nothing where there is none."""
        node = self.nodes.get(address)
        if node is None:
            return ""
        kind, detail, _ = self._kind_keys[self.kinds[node]]
        return detail or kind

    # ---- which objects are kept

    def _choose(self) -> None:
        of_each = [0] * len(self._kind_keys)
        for kind in self.kinds:
            of_each[kind] += 1
        counts: Dict[str, int] = {}
        for key, count in zip(self._kind_keys, of_each):
            name = self._name_of(key)
            self._class_names.append(name)
            self._class_addresses.append(self._class_address(key))
            self.wishes.counts[name] = self.wishes.counts.get(name, 0) + count
        if self.wishes.named:
            self._read_superclasses()
        keeps = [self._keeps(place) for place in range(len(of_each))]
        for name, count, is_kept in zip(self._class_names, of_each, keeps):
            found = counts if is_kept else self.left_out
            found[name] = found.get(name, 0) + count
        self.counts = counts
        self.wishes.need_known(set(self._class_names).union(self.classes.names()))
        self.wishes.need_room(sum(counts.values()), counts)
        self._number(keeps)

    def _keeps(self, place: int) -> bool:
        kind, _, address = self._kind_keys[place]
        name = self._class_names[place]
        if self.wishes.limited and kind in PLAIN and not self.wishes.asserted_of(name):
            return False
        return self.wishes.keeps(self.classes.owner_name(address) if kind in CLASS_TYPES else name)

    def _is_ignored(self, place: int) -> bool:
        """Whether neither the objects of a kind nor what they hold count."""
        return False

    def _wanted(self) -> Set[int]:
        """Objects that are kept whatever their class is."""
        return set()

    def _number(self, keeps: List[bool]) -> None:
        """Gives the objects their codes. What is left out and holds nothing has none."""
        unshared = [self.wishes.is_unshared(name) for name in self._class_names]
        ignored = [self._is_ignored(place) for place in range(len(self._class_names))]
        wanted = self._wanted()
        for node, kind in enumerate(self.kinds):
            if ignored[kind]:
                self.codes.append(0)
            elif keeps[kind] or node in wanted:
                self.kept += 1
                self.codes.append(self.kept)
                if unshared[kind]:
                    self._unshared.add(self.kept)
            elif self._has_references[node] or self._class_addresses[kind]:
                self._left_kinds.append(kind)
                self.codes.append(-len(self._left_kinds))
            else:
                self.codes.append(0)
        self.left.add(len(self._left_kinds))

    def _name_of(self, key: Kind) -> str:
        kind, detail, address = key
        if kind in CLASS_TYPES:
            return self.classes.type_of(address)
        if kind == "IMEMO":
            return _INTERNAL.get(detail, "(internal %s)" % detail)
        if address in self.classes:
            return self.classes.name_of(address)
        return "(hidden %s)" % (detail or kind.lower())

    def _class_address(self, key: Kind) -> int:
        """The class that objects of a kind hold; 0 where that is one that lasts anyway, or where it isn't known."""
        kind, _, address = key
        if kind in CLASS_TYPES:
            address = self.classes.class_address(address)
        return 0 if address in self.classes.lasting or address not in self.classes else address

    def _read_superclasses(self) -> None:
        for (kind, _, address), name in zip(self._kind_keys, self._class_names):
            if kind not in CLASS_TYPES and address in self.classes:
                self.wishes.superclasses.setdefault(name, set()).update(self.classes.above(address))
        for name, above in self.wishes.superclasses.items():
            above.discard(name)

    # ---- the second time through: what holds what

    def pass_over(self) -> int:
        """Where objects are left out: decides what of them stays as joints, and how many these are."""
        if not len(self.left):
            return 0
        self.left.take(self._references())
        for _, address in self._root_references():
            self.left.take_root(self.code_at(address))
        stay = self.left.settle(self.kept, self.progress.following)
        self.wishes.need_room(self.kept + stay, self.counts)
        return stay

    def code_at(self, address: int) -> int:
        node = self.nodes.get(address)
        return 0 if node is None else self.codes[node]

    def _references(self) -> Iterator[Tuple[int, int]]:
        """By codes who holds what, where one of them is left out. The labels of what is left out are noted."""
        for record, _, holder in self._objects("reading what is left out"):
            if not holder:
                continue
            for label, held in self._contents(record):
                if holder < 0:
                    self._left_labels.append(self._labels.place(label))
                    yield holder, held
                elif held < 0:
                    yield holder, held

    def _objects(self, step: str) -> Iterator[Tuple[Record, int, int]]:
        """All objects in their order: their lines, kinds and codes."""
        node = 0
        for record in self.reader.records(step):
            if record["type"] not in ("ROOT", _NAMES):
                yield record, self.kinds[node], self.codes[node]
                node += 1

    def _references_of(self, record: Record) -> List[int]:
        """The addresses of what an object refers to, as far as it counts."""
        references = self.reader.references(record)
        kind = record.get("imemo_type") or record.get("struct")
        if kind in _HOLD_AS_CLASS and "class" in record:
            references.insert(0, self.reader.address(record["class"]))
        if kind == "constcache":
            return [held for held in references if held not in self._constants]
        if kind in STACKS:
            return list(dict.fromkeys(references))  # a stack has most of what is on it more than once
        return references

    def _contents(self, record: Record) -> Iterator[Tuple[str, int]]:
        """What an object holds: the label and the code of each. References to classes that last are left out."""
        address = self.reader.address(record["address"])
        node = self.nodes[address]
        codes, lasting, code_at = self.codes, self.classes.lasting, self.code_at
        references = self._references_of(record)
        class_address = self._class_addresses[self.kinds[node]]
        if class_address and code_at(class_address):
            yield CLASS, code_at(class_address)
        given = self._names.of(node)
        for label, held in zip(self._label_maker.of(record, references), references):
            held_node = self.nodes.get(held)
            if held_node is None or held in lasting or not codes[held_node] or held == address:
                continue
            names = given.get(held_node) if given else None
            yield names.pop(0) if names else label, codes[held_node]

    def _label_of(self, place: int, edge: int, code: int) -> str:
        """The label of a reference of a left-out object."""
        return self._labels.texts[self._left_labels[edge]]

    def write(self, out: Output) -> None:
        """Writes the kept objects, and after them the joints."""
        for record, kind, code in self._objects("writing the objects"):
            if code <= 0:
                continue
            contents: List[Tuple[str, int, bool]] = []
            for label, held in self._contents(record):
                if held > 0:
                    contents.append((label, held, False))
                else:
                    contents += self.left.through(held, label)
            out.object(self._class_names[kind], int(record.get("memsize", 0)), contents)
        for joint in self.left.staying():
            out.joint(self._class_names[self._left_kinds[joint.place]], joint)

    def roots(self) -> Iterator[Tuple[str, int]]:
        """The roots by name, as far as they lead to what is in the trace."""
        for name, address in self._root_references():
            code = self.code_at(address)
            for number in self.left.numbers_of(code) if code else ():
                yield name, number

    def _root_references(self) -> Iterator[Tuple[str, int]]:
        for address in sorted(self.classes.lasting, key=self.nodes.__getitem__):
            yield self.classes.type_of(address), address
        for name, references in self._roots:
            for address in references:
                if address not in self.classes.lasting:
                    yield self._root_name(name, address), address

    def _root_name(self, name: str, address: int) -> str:
        return self._global_names.get(address, name) if name == _GLOBAL_TABLE else name


class _GivenNames:
    """The names that objects give to what they refer to, as the library in the program wrote them."""

    def __init__(self) -> None:
        self._labels = Names()
        self._holders, self._held = array("Q"), array("Q")  # addresses
        self._places = array("I")
        self._starts = array("Q")  # of each object; empty where no names were given
        self._order = array("Q")

    def add(self, holder: int, given: List[Tuple[int, str]]) -> None:
        for held, label in given:
            self._holders.append(holder)
            self._held.append(held)
            self._places.append(self._labels.place(label))

    def settle(self, nodes: Dict[int, int], environments) -> None:
        """All are given: they are sorted by who holds. The variables of a proc are those of its environments."""
        seen: Set[Tuple[int, int, int]] = set()
        for place in range(len(self._holders)):
            for holder in environments(self._holders[place]):
                key = (holder, self._held[place], self._places[place])
                if key not in seen:
                    seen.add(key)
                    self._holders.append(key[0])
                    self._held.append(key[1])
                    self._places.append(key[2])
        if not len(self._holders):
            return
        counts = array("Q", bytes(8 * (len(nodes) + 1)))
        for holder in self._holders:
            if holder in nodes:
                counts[nodes[holder] + 1] += 1
        self._starts = array("Q", accumulate(counts))
        free = self._starts[:]
        self._order = array("Q", bytes(8 * self._starts[-1]))
        for place, holder in enumerate(self._holders):
            if holder in nodes:
                node = nodes[holder]
                self._order[free[node]] = place
                free[node] += 1
        for place, held in enumerate(self._held):
            self._held[place] = nodes.get(held, len(nodes))

    def of(self, node: int) -> Dict[int, List[str]]:
        """By what an object holds the names that it gives to that, in their order."""
        found: Dict[int, List[str]] = {}
        if len(self._starts):
            for place in self._order[self._starts[node] : self._starts[node + 1]]:
                found.setdefault(self._held[place], []).append(self._labels.texts[self._places[place]])
        return found


def convert(file: BinaryIO, asked: argparse.Namespace, progress: Progress) -> None:
    """Writes the trace of a dump, or the snapshot for gcsnap, by the arguments of the command line."""
    wishes = Wishes(asked)
    heap = Heap(file, asked.dump, wishes, progress)
    heap.read()
    stay = heap.pass_over()
    say_left_out(heap.left_out, stay, heap.left, wishes, progress)
    with output_of(asked, wishes) as out:
        heap.write(out)
        out.finish(heap.roots(), progress)

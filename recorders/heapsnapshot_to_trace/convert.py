"""From V8's .heapsnapshot to a trace: nodes are objects, edges are slots, weak edges are weak slots."""
import argparse
import os
from array import array
from collections import Counter
from itertools import compress, repeat
from operator import floordiv, mod
from typing import BinaryIO, Callable, Dict, Iterator, List, Set, Tuple

from gcaudit_trace import TraceError
from gcaudit_trace.dumps.command import say_left_out
from gcaudit_trace.dumps.options import Wishes
from gcaudit_trace.dumps.output import DumpFile, output_of
from gcaudit_trace.graphs.left_out import LeftOut
from gcaudit_trace.progress import Progress

from .edges import Edges, needed
from .reader import Reader, read_members

# Plain values: they hold nothing but parts of themselves.
PLAIN = frozenset({"string", "concatenated string", "sliced string", "number", "symbol", "bigint"})
_BY_NAME = frozenset({"object", "synthetic", "native", "hidden"})  # nodes whose class is their name
_MOST_FUNCTION_NAMES = 30000
# Through its class an object leads to nearly all of the program: everything would be its owner's, and everything that
# is left out would lead to what is kept. So these edges are left out of both, but for those that alone lead somewhere.
_TO_MAP = "internal", "map"
_TO_CLASS = frozenset({_TO_MAP, ("property", "__proto__")})
_CLASS_ROOT = "class"
_OF_FUNCTIONS = "__proto__", "prototype"  # the properties of a class that lead to its superclass and to its prototype
NUMBERED = frozenset({"element", "hidden"})  # edges that have a number for a name
_MOST_KINDS = 256  # a type is kept in one byte


class Snapshot:
    """The nodes of a snapshot as arrays, and the names that are needed."""

    def __init__(self, file: BinaryIO, name: str, wishes: Wishes, progress: Progress) -> None:
        self.file = file
        self.name = name
        self.wishes = wishes
        self.progress = progress
        self.size = os.fstat(file.fileno()).st_size
        # Of each node:
        self.kinds = bytearray()
        self.names = array("I")
        self.edge_counts = array("I")
        self.sizes = array("Q")
        self.edges = Edges()
        self.codes = array("i")  # as in `left`; 0 where it is neither kept nor left out
        self.kept_nodes = array("I")
        self.left_nodes = array("I")
        self._unshared: Set[int] = set()  # the codes of kept nodes that are asserted unshared
        self.left = LeftOut(self._label_of, self._unshared)
        self._left_edges = array("I")  # of each reference that a left-out node holds the edge
        self._is_skipped = bytearray()  # of each edge whether it is left out, since it leads to a class
        self._class_roots: List[int] = []  # nodes to which only edges to classes lead, that are left out
        self._finds_classes = True  # whether what only edges to classes lead to is reached all the same
        self.left_out: Dict[str, int] = {}  # how many nodes of each class are left out
        self.texts: Dict[int, str] = {}
        self.weak_lost = 0
        self.to_classes = 0  # references from objects to their classes that are left out
        self._class_edges: Set[Tuple[int, int]] = set()  # the type and name of those to classes
        self._map_edges: Set[Tuple[int, int]] = set()  # of these, those to V8's maps
        self._prototypes: Dict[int, str] = {}  # by the node what is said for its class
        self._class_names: Dict[Tuple[int, int], str] = {}  # by type and name
        self._labels: Dict[Tuple[int, int], str] = {}  # by type and name
        self._wanted: Set[int] = set()
        self._node_width = 0

    # ---- reading the nodes, the edges and the names

    def read(self) -> None:
        takers: Dict[str, Callable[[Reader], None]] = {
            "snapshot": self._take_meta,
            "nodes": self._take_nodes,
            "edges": self._take_edges,
            "strings": self._take_strings,
        }
        read_members(Reader(self.file, self.name, self.progress, "reading the snapshot", self.size), takers)
        self._choose()

    def _wrong(self, why: str) -> TraceError:
        return TraceError("%s is no heap snapshot that is known: %s" % (self.name, why))

    def _take_meta(self, reader: Reader) -> None:
        try:
            meta = reader.value()["meta"]
            nodes, edges = meta["node_fields"], meta["edge_fields"]
            self.kind_words = list(meta["node_types"][nodes.index("type")])
            self.edge_words = list(meta["edge_types"][edges.index("type")])
            self._node_width, self._edge_width = len(nodes), len(edges)
            self._kind_at, self._name_at, self._count_at = (
                nodes.index(field) for field in ("type", "name", "edge_count")
            )
            self._size_at = nodes.index("self_size") if "self_size" in nodes else None
            self._edge_at = tuple(edges.index(field) for field in ("type", "name_or_index", "to_node"))
        except (KeyError, ValueError, TypeError, IndexError, AttributeError):
            raise self._wrong("its description of nodes and edges is another") from None
        if max(len(self.kind_words), len(self.edge_words)) > _MOST_KINDS:
            raise self._wrong("it has more than %d types" % _MOST_KINDS)
        self._weak = self.edge_words.index("weak") if "weak" in self.edge_words else -1
        self._is_plain = bytes(word in PLAIN for word in self.kind_words).ljust(256, b"\0")

    def _rows(self, reader: Reader, width: int) -> Iterator[List[int]]:
        """The numbers of whole nodes or edges, some at a time."""
        left: List[int] = []
        for piece in reader.numbers():
            piece = left + piece
            whole = len(piece) - len(piece) % width
            left = piece[whole:]
            del piece[whole:]
            yield piece
        if left:
            raise self._wrong("its last node or edge is not whole")

    def _take_nodes(self, reader: Reader) -> None:
        width = self._node_width
        if not width:
            raise self._wrong("its description doesn't come first")
        try:
            for rows in self._rows(reader, width):
                self.kinds.extend(rows[self._kind_at :: width])
                self.names.extend(rows[self._name_at :: width])
                self.edge_counts.extend(rows[self._count_at :: width])
                self.sizes.extend(
                    rows[self._size_at :: width] if self._size_at is not None else repeat(0, len(rows) // width)
                )
        except (OverflowError, ValueError):
            raise self._wrong("a node has a number that can't be") from None
        if self.kinds and max(self.kinds) >= len(self.kind_words):
            raise self._wrong("a node is of a type that has no name")
        self._wanted.update(compress(self.names, self.kinds.translate(bytes(1 - plain for plain in self._is_plain))))

    def _is_object(self) -> bytes:
        """For each node 1 where it is no plain value, else 0; in a graph of all, 1 for each."""
        return self.kinds.translate(bytes(1 - (plain and self.wishes.limited) for plain in self._is_plain))

    def _take_edges(self, reader: Reader) -> None:
        if not self.kinds:
            raise self._wrong("its nodes don't come first")
        is_named = bytes(word not in NUMBERED for word in self.edge_words).ljust(256, b"\0")
        kind_at, name_at, to_at = self._edge_at
        width, node_width, end = self._edge_width, self._node_width, self._node_width * len(self.kinds)
        for rows in self._rows(reader, width):
            targets = rows[to_at::width]
            try:
                kinds, names = bytes(rows[kind_at::width]), array("I", rows[name_at::width])
            except (ValueError, OverflowError):
                raise self._wrong("an edge has a number that can't be") from None
            if kinds and (
                max(kinds) >= len(self.edge_words)
                or min(targets) < 0
                or max(targets) >= end
                or any(map(mod, targets, repeat(node_width)))
            ):
                raise self._wrong("an edge is of a type that has no name, or leads to no node")
            self._wanted.update(compress(names, kinds.translate(is_named)))
            self.edges.add(kinds, names, map(floordiv, targets, repeat(node_width)))
        if len(self.edges) != sum(self.edge_counts):
            raise self._wrong(
                "its nodes say that there are %d edges, and there are %d" % (sum(self.edge_counts), len(self.edges))
            )
        self.edges.settle(self.edge_counts)
        self._is_skipped = bytearray(len(self.edges))

    def _take_strings(self, reader: Reader) -> None:
        if len(self.edges.starts) == 1:
            raise self._wrong("its nodes and edges don't come first")
        self.texts = reader.strings(self._wanted)
        self._wanted = set()
        self._class_edges = {
            (kind, name)
            for name, text in self.texts.items()
            for kind, word in enumerate(self.edge_words)
            if (word, text) in _TO_CLASS
        }
        self._map_edges = {
            (kind, name) for kind, name in self._class_edges if (self.edge_words[kind], self.texts[name]) == _TO_MAP
        }

    # ---- which nodes are kept

    def _choose(self) -> None:
        """Gives the nodes their codes. The node 0 is where the roots are, and no object."""
        is_object = bytearray(self._is_object())
        is_object[0] = 0
        for kind, word in enumerate(self.kind_words):
            if word in PLAIN and self.wishes.limited:
                self._count_left_out(word, self.kinds.count(kind) - (kind == self.kinds[0]))
        of_each = Counter(compress(zip(self.kinds, self.names), is_object))
        self._names_functions = sum(self.kind_words[kind] == "closure" for kind, _ in of_each) <= _MOST_FUNCTION_NAMES
        keeps: Dict[Tuple[int, int], bool] = {}  # by type and name
        counts: Dict[str, int] = {}
        for key, count in of_each.items():
            self._class_names[key] = name = self._class_name(*key)
            self.wishes.counts[name] = self.wishes.counts.get(name, 0) + count
        self.wishes.counts[""] = 0
        if self.wishes.named:
            self._read_classes()
        for key, count in of_each.items():
            name = self._class_names[key]
            keeps[key] = self.wishes.keeps(name)
            if keeps[key]:
                counts[name] = counts.get(name, 0) + count
            else:
                self._count_left_out(name, count)
        self._counts = counts
        functions = {self.texts.get(name, "") for kind, name in of_each if self.kind_words[kind] == "closure"}
        self.wishes.need_known(functions.union(self._class_names.values()))
        self.wishes.need_room(sum(counts.values()), counts)
        self.codes = codes = array("i", bytes(4 * len(self.kinds)))
        for node, key in compress(enumerate(zip(self.kinds, self.names)), is_object):
            if keeps[key]:
                self.kept_nodes.append(node)
                codes[node] = len(self.kept_nodes)
                if self.wishes.is_unshared(self.class_of(node)):
                    self._unshared.add(codes[node])
            else:
                self.left_nodes.append(node)
                codes[node] = -len(self.left_nodes)
        self.left.add(len(self.left_nodes))

    def _read_classes(self) -> None:
        """Finds the superclasses of each class, and the objects that are prototypes: V8 gives them the name of the superclass.

        A function that is a class holds its prototype, and has that of its superclass for its own prototype.
        """
        closure = self.kind_words.index("closure") if "closure" in self.kind_words else -1
        property = self.edge_words.index("property") if "property" in self.edge_words else -1
        to_super, to_prototype = ({name for name, text in self.texts.items() if text == one} for one in _OF_FUNCTIONS)
        kinds, names, text_of, edges = self.kinds, self.names, self.texts.get, self.edges
        directly: Dict[str, Set[str]] = {}
        for holder in compress(range(len(kinds)), (kind == closure for kind in kinds)):
            for edge in edges.of(holder):
                name, held = edges.names[edge], edges.targets[edge]
                if edges.kinds[edge] == property:
                    if name in to_prototype:
                        self._prototypes[held] = "prototype of " + text_of(names[holder], "")
                    elif name in to_super and kinds[held] == closure and names[held] != names[holder]:
                        directly.setdefault(text_of(names[holder], ""), set()).add(text_of(names[held], ""))
        self.wishes.superclasses = {name: _all_above(name, directly) for name in directly}
        for node in self._prototypes:
            self.wishes.counts[self._class_names.get((kinds[node], names[node]), "")] -= 1

    def _count_left_out(self, name: str, count: int) -> None:
        if count:
            self.left_out[name] = self.left_out.get(name, 0) + count

    def _class_name(self, kind: int, name: int) -> str:
        """The constructor of an object; of other nodes their kind, and the name where that tells something."""
        word = self.kind_words[kind]
        text = self.texts.get(name, "")
        if word in _BY_NAME:
            return text or word
        if word.endswith("string"):
            return "string"
        if word == "closure":
            return "function " + text if text and self._names_functions else "function"
        return word

    def class_of(self, node: int) -> str:
        if node in self._prototypes:
            return self._prototypes[node]
        return self._class_names[self.kinds[node], self.names[node]]

    # ---- where something is left out: how references go on through it

    def pass_over(self) -> int:
        """Where nodes are left out: decides what of them stays as joints, and how many these are."""
        self._skip_classes()
        left = self.left
        if not len(left):
            return 0
        left.hold(self._held_by_left_out())
        left.take_kept(self._held_by_kept())
        for code in self._root_codes():
            left.take_root(code)
        stay = left.settle(len(self.kept_nodes), self.progress.following)
        self.wishes.need_room(len(self.kept_nodes) + stay, self._counts)
        return stay

    def _skip_classes(self) -> None:
        """Leaves out the edges from objects to their classes, and those of V8's maps, of what is left out; where something is owned those of all objects.

        What would not be reached without them has a reference all the same: it may be the prototype of an object, which holds what
        nothing else does. Where something is owned it has a root instead.
        """
        edges, owns = self.edges, bool(self.wishes.owners)
        if not len(self.left) and not owns:
            return
        self.progress.at("following references to classes")
        self._is_skipped = skipped = self._edges_to_classes(owns)
        if self._finds_classes:
            is_passed = bytes(code == 0 for code in self.codes)
            for edge in needed(edges, self._weak, is_passed, skipped):
                if owns:
                    self._class_roots.append(edges.targets[edge])
                else:
                    skipped[edge] = 0
        self.to_classes = sum(skipped)

    def _edges_to_classes(self, owns: bool) -> bytearray:
        """For each edge whether it leads to a class and is of a left-out node, or of any where something is owned.

        Those of left-out maps count too, but for what must not be shared.
        """
        edges, by_name, maps = self.edges, {name for _, name in self._class_edges}, set()
        to_class = bytearray(len(edges))
        for edge in compress(range(len(edges)), map(by_name.__contains__, edges.names)):
            to_class[edge] = self._edge_key(edge) in self._class_edges
            if self._edge_key(edge) in self._map_edges:
                maps.add(edges.targets[edge])
        found = to_class if owns else bytearray(len(edges))
        for node in self.left_nodes:
            if node in maps:
                for edge in edges.of(node):
                    found[edge] = self.codes[edges.targets[edge]] not in self._unshared
            elif not owns:
                start, end = edges.starts[node], edges.starts[node + 1]
                found[start:end] = to_class[start:end]
        return found

    def _edge_key(self, edge: int) -> Tuple[int, int]:
        return self.edges.kinds[edge], self.edges.names[edge]

    def _held_by_left_out(self) -> Iterator[List[int]]:
        """What each left-out node holds strongly, by codes. The edges are noted, for their labels."""
        edges, codes, skipped, weak = self.edges, self.codes, self._is_skipped, self._weak
        targets, kinds, note = edges.targets, edges.kinds, self._left_edges.append
        for node in self.left_nodes:
            found = []
            for edge in edges.of(node):
                held = codes[targets[edge]]
                if held and kinds[edge] != weak and not skipped[edge]:
                    found.append(held)
                    note(edge)
            yield found

    def _held_by_kept(self) -> Iterator[int]:
        """The codes of what kept nodes hold strongly."""
        edges, codes, skipped, weak = self.edges, self.codes, self._is_skipped, self._weak
        for node in self.kept_nodes:
            for edge in edges.of(node):
                if edges.kinds[edge] != weak and not skipped[edge]:
                    yield codes[edges.targets[edge]]

    def _label_of(self, place: int, edge: int, code: int) -> str:
        """The label of a reference of a left-out node."""
        return self._label(*self._edge_key(self._left_edges[edge]))

    # ---- the trace

    def write(self, out: DumpFile) -> None:
        """Writes the kept nodes, and behind them the joints."""
        for node in self._in_steps("writing the objects"):
            out.object(self.class_of(node), self.sizes[node], self._holdings(node))
        for joint in self.left.staying():
            out.joint(self.class_of(self.left_nodes[joint.place]), joint)

    def _in_steps(self, step: str) -> Iterator[int]:
        """The kept nodes, with progress told."""
        nodes = self.kept_nodes
        for start in range(0, len(nodes), 1 << 16):
            self.progress.at(step, self.size * start // len(nodes), self.size)
            yield from nodes[start : start + (1 << 16)]

    def _holdings(self, node: int) -> List[Tuple[str, int, bool]]:
        """What a kept node holds: label, number in the trace, whether weakly."""
        edges, codes, weak, label = self.edges, self.codes, self._weak, self._label
        start, end = edges.starts[node], edges.starts[node + 1]
        found: List[Tuple[str, int, bool]] = []
        for kind, name, to, skipped in zip(
            edges.kinds[start:end], edges.names[start:end], edges.targets[start:end], self._is_skipped[start:end]
        ):
            held = codes[to]
            if not held or skipped:
                continue
            if held > 0:
                found.append((label(kind, name), held, kind == weak))
            elif kind == weak:
                self.weak_lost += 1
            else:
                found += self.left.through(held, label(kind, name))
        return found

    def _label(self, kind: int, name: int) -> str:
        word = self.edge_words[kind]
        if word == "element":
            return "[%d]" % name
        if word == "hidden":
            return "(hidden %d)" % name
        found = self._labels.get((kind, name))
        if found is None:
            text = self.texts.get(name, "")
            found = "(variable %s)" % text if word == "context" else "." + text if word == "property" else "(%s)" % text
            self._labels[kind, name] = found
        return found

    def _root_codes(self) -> Iterator[int]:
        """The codes of what roots name, as often as they do."""
        for edge in self.edges.of(0):
            if self.edges.kinds[edge] != self._weak:
                yield self.codes[self.edges.targets[edge]]
        yield from (self.codes[node] for node in self._class_roots)

    def roots(self) -> Iterator[Tuple[str, int]]:
        """The roots by name, as far as they lead to what is in the trace."""
        for edge in self.edges.of(0):
            if self.edges.kinds[edge] != self._weak:
                node = self.edges.targets[edge]
                for number in self._numbers_of(node):
                    yield self.texts.get(self.names[node], "") or self._label(*self._edge_key(edge)), number
        for node in self._class_roots:
            for number in self._numbers_of(node):
                yield _CLASS_ROOT, number

    def _numbers_of(self, node: int) -> List[int]:
        """The numbers in the trace of a kept node, or of what a left-out one leads to."""
        return self.left.numbers_of(self.codes[node]) if self.codes[node] else []


def _all_above(name: str, directly: Dict[str, Set[str]]) -> Set[str]:
    """The superclasses of a class, from those of which each class is a direct subclass."""
    found: Set[str] = set()
    work = [name]
    while work:
        new = directly.get(work.pop(), set()) - found
        found |= new
        work += new
    return found - {name}


def convert(file: BinaryIO, asked: argparse.Namespace, progress: Progress) -> None:
    """Writes the trace of a snapshot of V8, or the snapshot for gcsnap, by the words of the command line."""
    wishes = Wishes(asked)
    snapshot = Snapshot(file, asked.dump, wishes, progress)
    snapshot.read()
    stay = snapshot.pass_over()
    say_left_out(snapshot.left_out, stay, snapshot.left, wishes, progress)
    with output_of(asked, wishes) as out:
        snapshot.write(out)
        if snapshot.weak_lost:
            progress.say("%d weak references to objects that are left out have no slot" % snapshot.weak_lost)
        if snapshot.to_classes:
            progress.say(
                "%d references from objects to their classes are left out (map, __proto__)" % snapshot.to_classes
            )
        out.finish(snapshot.roots(), progress)

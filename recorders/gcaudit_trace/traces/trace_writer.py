"""Writing a trace, a line for each operation."""
import json
from typing import Any, Callable, Dict, Iterable, Optional, Set, Tuple

from .limits import Counted, Room

# The types and roots that a trace has, its last id, its objects and slots, and whether it asserts something.
State = Tuple[Set[str], Set[str], int, int, int, bool]


class TraceWriter(Counted):
    """Writes the operations of a trace with `write`, and refuses what gcaudit, or a program with other `room`, would refuse by its limits.

    Names must be legal (see names.py). What is freed by a collection is told by `freed`.
    """

    def __init__(self, write: Callable[[str], Any], limited: bool = True, room: Optional[Room] = None) -> None:
        super().__init__("trace", limited, room)
        self._write = write
        self._quoted: Dict[str, str] = {}
        self.asserts = False  # whether anything is asserted in the trace so far

    def _quote(self, text: str) -> str:
        quoted = self._quoted.get(text)
        if quoted is None:
            quoted = json.dumps(
                text.encode("utf-8", "backslashreplace").decode("utf-8")
            )  # a lone surrogate is no JSON for gcaudit
            if len(self._quoted) < 200000:
                self._quoted[text] = quoted
        return quoted

    def alloc(self, type_name: str, slots: int, thread: int = 0, size: Optional[int] = None, key: int = 0) -> int:
        """A new object; the answer is its id.

        Its size in bytes, and the key by which later dumps of its process know it, are for other readers; gcaudit ignores them.
        """
        number = self._see_object(type_name, slots)
        on_thread = ',"thread":%d' % thread if thread else ""
        more = "" if size is None else ',"bytes":%d' % size
        if key:
            more += ',"key":%d' % key
        self._write(
            f'{{"op":"alloc","id":{number},"type":{self._quoted.get(type_name) or self._quote(type_name)},"slots":{slots}{on_thread}{more}}}\n'
        )
        return number

    def state(self) -> State:
        """What it counted, for another writer that goes on with the trace."""
        return self._types, self._roots, self.last_id, self.objects, self.slots, self.asserts

    def go_on(self, state: State) -> None:
        """Goes on where another writer stopped. What was seen here only, of types and assertions, stays."""
        types, self._roots, self.last_id, self.objects, self.slots, asserts = state
        self._types |= types
        self.asserts = self.asserts or asserts

    def freed(self, objects: int, slots: int) -> None:
        """A collection freed so many objects, with so many slots in all."""
        self.objects -= objects
        self.slots -= slots

    def store(self, at: int, slot: int, to: Optional[int], label: str = "") -> None:
        """A slot holds an object, or nothing. The label says how the program calls the slot; gcaudit ignores it."""
        held = "null" if to is None else to
        labelled = ',"label":' + self._quote(label) if label else ""
        self._write(f'{{"op":"store","at":{at},"slot":{slot},"to":{held}{labelled}}}\n')

    def ending(self, label: str) -> str:
        """How the line of a store with this label ends."""
        return ',"label":%s}\n' % (self._quoted.get(label) or self._quote(label))

    def fill(self, at: int, contents: Iterable[Tuple[str, int, bool]]) -> None:
        """Fills the slots of a new object from the first on: label, the object that is held or 0, whether weakly."""
        ending = self.ending
        self.fill_by_endings(at, [(ending(label) if to else "", to, weak) for label, to, weak in contents])

    def fill_by_endings(self, at: int, contents: Iterable[Tuple[str, int, bool]]) -> None:
        """The same, with the endings of the labels in their place."""
        lines, head = [], f'{{"op":"store","at":{at},"slot":'
        for slot, (ending, to, weak) in enumerate(contents):
            if weak:
                lines.append(f'{{"op":"set-weak","at":{at},"slot":{slot},"weak":true}}\n')
            if to:
                lines.append(f'{head}{slot},"to":{to}{ending}')
        if lines:
            self._write("".join(lines))

    def set_weak(self, at: int, slot: int, weak: bool) -> None:
        self._write('{"op":"set-weak","at":%d,"slot":%d,"weak":%s}\n' % (at, slot, "true" if weak else "false"))

    def resize(self, at: int, slot: int, size: int) -> None:
        """An object has so many bytes from now on. For gcaudit the line says of a slot that isn't weak that it isn't."""
        self._write('{"op":"set-weak","at":%d,"slot":%d,"weak":false,"bytes":%d}\n' % (at, slot, size))

    def root(self, name: str, to: Optional[int]) -> None:
        if to is None:
            self._roots.discard(name)
        else:
            self._see_root(name)
        self._write('{"op":"root","name":%s,"to":%s}\n' % (self._quote(name), "null" if to is None else "%d" % to))

    def assert_dead(self, number: int) -> None:
        self._write_assertion('{"op":"assert-dead","id":%d}\n' % number)

    def start_region(self, thread: int) -> None:
        self._write('{"op":"start-region","thread":%d}\n' % thread)

    def assert_alldead(self, thread: int) -> None:
        self._write_assertion('{"op":"assert-alldead","thread":%d}\n' % thread)

    def assert_instances(self, type_name: str, limit: int) -> None:
        self._see_type(type_name)
        self._write_assertion('{"op":"assert-instances","type":%s,"limit":%d}\n' % (self._quote(type_name), limit))

    def assert_unshared(self, number: int) -> None:
        self._write_assertion('{"op":"assert-unshared","id":%d}\n' % number)

    def assert_owned_by(self, owner: int, ownee: int) -> None:
        self._write_assertion('{"op":"assert-ownedby","owner":%d,"ownee":%d}\n' % (owner, ownee))

    def _write_assertion(self, line: str) -> None:
        self.asserts = True
        self._write(line)

    def collect(self) -> None:
        self._write('{"op":"collect"}\n')

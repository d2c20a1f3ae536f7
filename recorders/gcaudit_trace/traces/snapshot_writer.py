"""Writing a heap snapshot, as gcsnap reads it."""
from typing import Any, Callable, Iterable, List, Tuple

from ..errors import TraceError
from . import limits
from .limits import Counted


class SnapshotWriter(Counted):
    """Writes the text of a heap snapshot, as gcsnap reads it, with `write`: each object with what it holds, then `finish` with the roots.

    Names must be legal. Slots have no labels there, and a weak slot is an empty one.
    """

    def __init__(self, write: Callable[[str], Any]) -> None:
        super().__init__("snapshot")
        self._write_text = write
        self._bytes = 0
        self._write("heapsnap 1\n")

    def _write(self, text: str) -> None:
        self._bytes += len(text) if text.isascii() else len(text.encode("utf-8"))
        if self._bytes > limits.LONGEST_SNAPSHOT:
            raise TraceError(
                "the snapshot would have more than %d bytes, which gcsnap doesn't take" % limits.LONGEST_SNAPSHOT
            )
        self._write_text(text)

    def object(self, type_name: str, contents: List[Tuple[str, int, bool]]) -> int:
        """A new object, by what its slots hold: label, the object that is held or 0, whether weakly. The answer is its id."""
        number = self._see_object(type_name, len(contents))
        held = [f"slot {slot} {to}\n" for slot, (_, to, weak) in enumerate(contents) if to and not weak]
        self._write(f"object {number} {len(contents)} {type_name}\n" + "".join(held))
        return number

    def finish(self, roots: Iterable[Tuple[str, int]]) -> None:
        """The roots by name, each name once, and the end."""
        for name, number in sorted(roots, key=lambda root: root[0].encode("utf-8")):
            self._see_root(name)
            self._write("root %d %s\n" % (number, name))
        self._write("end\n")

"""The file that a reader of dumps writes: a trace of one collection, or a heap snapshot."""
import argparse
import contextlib
import tempfile
from typing import Dict, Iterable, Iterator, List, Tuple, Union

from ..errors import TraceError
from ..graphs.left_out import Staying
from ..progress import Progress
from ..traces.limits import MOST_INSTANCES, Counted
from ..traces.names import UniqueNames, legal_name
from ..traces.snapshot_writer import SnapshotWriter
from ..traces.trace_writer import TraceWriter
from ..traces.whole_file import Batch, WholeFile
from .options import PLUS, Wishes, most_of, without_plus


class DumpFile:
    """A file of what is kept of a dump: objects and what they hold, in one go, then the roots.

    It is a context; where that is left by an error no file is left.
    """

    def __init__(self, path: str) -> None:
        self._path = path
        self._whole = WholeFile(path)
        self._lines = Batch(self._whole.write)
        self._names = UniqueNames()
        self._legal: Dict[str, str] = {}

    def __exit__(self, kind, error, trace) -> None:
        if kind is not None:
            self._whole.give_up()

    def _type_of(self, class_name: str) -> str:
        """The name under which a class stands in the file."""
        legal = self._legal.get(class_name)
        if legal is None:
            legal = self._legal[class_name] = legal_name(class_name)
        return legal

    def object(self, class_name: str, size: int, contents: List[Tuple[str, int, bool]]) -> None:
        """The next object, its bytes, and what it holds: label, number in the file, whether weakly."""
        raise NotImplementedError

    def joint(self, class_name: str, joint: Staying) -> None:
        """The next joint, by the class of one of the objects that it stands for."""
        more = " and %d more" % (joint.count - 1) if joint.count > 1 else ""
        self.object("left out %s%s" % (class_name, more), 0, joint.contents)

    def _named(self, roots: Iterable[Tuple[str, int]]) -> Iterator[Tuple[str, int]]:
        """The roots, each once, under names of their own."""
        seen = set()
        for name, number in roots:
            if (name, number) not in seen:
                seen.add((name, number))
                yield self._names.name_for(name), number

    def _end(self, written: Counted, progress: Progress) -> None:
        """Everything was written: the file gets its name."""
        self._lines.flush()
        self._whole.finish()
        progress.say("%d objects and %d roots in %s" % (written.objects, written.roots(), self._path))


class DumpSnapshot(DumpFile):
    """Writes a heap snapshot for gcsnap."""

    def __init__(self, path: str) -> None:
        super().__init__(path)
        self._snapshot = SnapshotWriter(self._lines.add)

    def __enter__(self) -> "DumpSnapshot":
        return self

    def object(self, class_name: str, size: int, contents: List[Tuple[str, int, bool]]) -> None:
        self._snapshot.object(self._type_of(class_name), contents)

    def finish(self, roots: Iterable[Tuple[str, int]], progress: Progress) -> None:
        """Writes the roots, and gives the file its name."""
        self._snapshot.finish(self._named(roots))
        self._end(self._snapshot, progress)


class DumpTrace(DumpFile):
    """Writes a trace of one collection: objects and what they hold, then roots and assertions.

    Stores must stand behind all objects, so they wait in a file without a name until the objects are written.
    """

    def __init__(self, path: str, wishes: Wishes) -> None:
        super().__init__(path)
        try:
            self._waiting = tempfile.TemporaryFile(
                "w+", encoding="utf-8", newline="\n", dir=self._whole.folder, buffering=1 << 20
            )
        except OSError as error:
            self._whole.give_up()
            raise self._whole.failed(error) from None
        self._stores = Batch(self._waiting.write)
        self.trace = TraceWriter(self._lines.add, wishes.limited, wishes.room)
        self._contents = TraceWriter(self._stores.add)
        self._wishes = wishes
        self._of_class: Dict[str, List[int]] = {name: [] for name in wishes.named}
        self._asserted: Dict[str, List[str]] = {}  # under which names something is asserted of each class

    def __enter__(self) -> "DumpTrace":
        return self

    def _type_of(self, class_name: str) -> str:
        if class_name not in self._legal:
            self._legal[class_name] = legal_name(self._wishes.limited_as(class_name))
        return self._legal[class_name]

    def _named_by(self, class_name: str) -> List[str]:
        """Under which names something is asserted of a class."""
        found = self._asserted.get(class_name)
        if found is None:
            found = self._asserted[class_name] = self._wishes.asserted_of(class_name)
        return found

    def __exit__(self, kind, error, trace) -> None:
        super().__exit__(kind, error, trace)
        with contextlib.suppress(OSError):  # what it held is in the trace by now, or given up
            self._waiting.close()

    def object(self, class_name: str, size: int, contents: List[Tuple[str, int, bool]]) -> None:
        number = self._alloc(class_name, size, len(contents))
        for name in self._named_by(class_name):
            self._of_class[name].append(number)
        try:
            self._contents.fill(number, contents)
        except OSError as error:
            raise self._whole.failed(error) from None

    def _alloc(self, class_name: str, size: int, slots: int) -> int:
        return self.trace.alloc(self._type_of(class_name), slots, 0, size)

    def finish(self, roots: Iterable[Tuple[str, int]], progress: Progress) -> None:
        """Writes the stores, the roots, the assertions and the collection, and gives the file its name."""
        self._lines.flush()
        self._copy_stores()
        for name, number in self._named(roots):
            self.trace.root(name, number)
        self._assert(progress)
        self.trace.collect()
        self._end(self.trace, progress)

    def _copy_stores(self) -> None:
        try:
            self._stores.flush()
            self._waiting.seek(0)
            text = self._waiting.read(1 << 20)
            while text:
                self._whole.write(text)
                text = self._waiting.read(1 << 20)
        except OSError as error:
            raise self._whole.failed(error) from None

    def _assert(self, progress: Progress) -> None:
        wishes = self._wishes
        if not wishes.named:
            progress.say(
                "nothing is asserted in it, so gcaudit has nothing to check: see --dead, --limit and the others"
            )
        for name in sorted(wishes.named):
            if not self._of_class[name]:
                self._say_missing(name, progress)
                if name not in wishes.limits:
                    # What was asserted holds, since there is nothing of which it could not. It is to be seen that it was.
                    self.trace.assert_instances(legal_name(name), MOST_INSTANCES)
        for name in sorted(wishes.dead):
            for number in self._of_class[name]:
                self.trace.assert_dead(number)
        for name, limit in sorted(wishes.limits.items()):
            self.trace.assert_instances(legal_name(name), limit)
        for name in sorted(wishes.unshared):
            for number in self._of_class[name]:
                self.trace.assert_unshared(number)
        for owner, ownees in sorted(wishes.owners.items()):
            numbers = self._of_class[owner]
            if len(numbers) != 1:
                raise TraceError(
                    "--owned-by needs exactly one object of the class %s, and there are %d" % (owner, len(numbers))
                )
            for ownee in ownees:
                for number in self._of_class[ownee]:
                    if number != numbers[0]:
                        self.trace.assert_owned_by(numbers[0], number)

    def _say_missing(self, name: str, progress: Progress) -> None:
        """Says that there is no object of a class, and how many its subclasses have."""
        if name.endswith(PLUS):
            progress.say("no object of the class %s or of a subclass is in the dump" % without_plus(name))
            return
        found = self._wishes.objects_of_subclasses(name)
        more = "; its subclasses have %d (%s), and %s%s means these too" % (
            sum(found.values()),
            most_of(found),
            name,
            PLUS,
        )
        progress.say("no object of the class %s is in the dump%s" % (name, more if found else ""))


def output_of(asked: argparse.Namespace, wishes: Wishes) -> Union[DumpTrace, DumpSnapshot]:
    """What the words of the command line want written, and where."""
    return DumpSnapshot(asked.trace) if asked.snapshot else DumpTrace(asked.trace, wishes)

"""A file that appears under its name only when it is whole, and writing many lines at a time."""
import contextlib
import os
import tempfile
import weakref
from typing import Any, Callable, List

from ..errors import TraceError

_LINES_AT_A_TIME = 4096


class WholeFile:
    """A text file that is written beside its name, and takes its name at `finish`.

    Where the writing fails or is given up, nothing is left, and a file that had the name before stays. So it is where
    nobody finishes the file before it is forgotten or the program ends.
    """

    def __init__(self, path: str) -> None:
        try:
            self.path = os.path.abspath(os.fsdecode(path))
        except TypeError:
            raise TraceError(
                "a trace is written to a path or to an open text file, not to a %s" % type(path).__name__
            ) from None
        if "\0" in self.path or not path:
            raise TraceError("a path is not empty, and has no zero byte in it")
        self._place = os.path.realpath(self.path)  # a link stays, and what it leads to is replaced
        self.folder, base = os.path.split(self._place)
        if os.path.exists(self._place) and not os.path.isfile(self._place):
            raise TraceError("%s can't be written: something is there that is no plain file" % path)
        try:
            handle, self._temporary = tempfile.mkstemp(prefix="." + base[:60] + ".", suffix=".part", dir=self.folder)
        except OSError as error:
            raise self.failed(error) from None
        self._file = os.fdopen(handle, "w", encoding="utf-8", newline="\n", buffering=1 << 20)
        self._remove = weakref.finalize(self, _remove, self._temporary, os.getpid())

    def failed(self, error: OSError) -> TraceError:
        return TraceError("%s can't be written: %s" % (self.path, error.strerror or error))

    def write(self, text: str) -> None:
        try:
            self._file.write(text)
        except OSError as error:
            raise self.failed(error) from None

    def flush(self) -> None:
        """What was written stands in the file, also for a process that is forked now."""
        try:
            self._file.flush()
        except OSError as error:
            raise self.failed(error) from None

    def write_in_child(self) -> None:
        """In a process that was forked after `flush`: what is written from now on comes after it, up to `flush`."""
        self._inherited = self._file  # it isn't closed, or it would be written once more
        try:
            self._file = open(self._temporary, "a", encoding="utf-8", newline="\n", buffering=1 << 20)
        except OSError as error:
            raise self.failed(error) from None

    def go_on_after_child(self) -> None:
        """What is written from now on comes after what a child wrote."""
        self._file.seek(0, os.SEEK_END)

    def finish(self) -> None:
        """Everything was written: the file takes its name."""
        try:
            self._file.close()
            os.chmod(self._temporary, 0o666 & ~_umask())
            os.replace(self._temporary, self._place)
            self._remove.detach()
        except OSError as error:
            self.give_up()
            raise self.failed(error) from None

    def give_up(self) -> None:
        """Leaves no file behind."""
        with contextlib.suppress(OSError):
            self._file.close()
        self._remove()


def _remove(path: str, process: int) -> None:
    """Removes a file of this process; a process that was forked from it leaves it."""
    if os.getpid() == process:
        with contextlib.suppress(OSError):
            os.unlink(path)


def _umask() -> int:
    mask = os.umask(0o077)
    os.umask(mask)
    return mask


class Batch:
    """Hands lines on many at a time, since a file takes long for each write."""

    def __init__(self, write: Callable[[str], Any]) -> None:
        self._write = write
        self._lines: List[str] = []

    def add(self, line: str) -> None:
        self._lines.append(line)
        if len(self._lines) >= _LINES_AT_A_TIME:
            self.flush()

    def flush(self) -> None:
        self._write("".join(self._lines))
        self._lines.clear()

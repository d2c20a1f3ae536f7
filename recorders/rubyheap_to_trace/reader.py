"""Reads a dump of ObjectSpace.dump_all: a line of JSON for each object and each kind of root."""
import json
import os
from typing import Any, BinaryIO, Dict, Iterator, List

from gcaudit_trace import TraceError
from gcaudit_trace.progress import Progress

Record = Dict[str, Any]
_TOLD_EVERY = 1 << 12  # lines


class DumpReader:
    """Reads the file from its beginning, as often as is asked."""

    def __init__(self, file: BinaryIO, name: str, progress: Progress) -> None:
        self._file = file
        self._name = name
        self._progress = progress
        self._size = os.fstat(file.fileno()).st_size

    def records(self, step: str) -> Iterator[Record]:
        """All lines in their order, but for slots that are empty."""
        self._file.seek(0)
        done = 0
        for count, line in enumerate(self._file):
            done += len(line)
            if not count % _TOLD_EVERY:
                self._progress.at(step, done, self._size)
            if line.isspace():
                continue
            record = self._record(line)
            if record["type"] != "NONE":
                yield record

    def _record(self, line: bytes) -> Record:
        try:
            record = json.loads(line.decode("utf-8", "replace"))
            is_known = isinstance(record, dict) and isinstance(record.get("type"), str)
        except (ValueError, RecursionError):
            if not line.endswith(b"\n"):
                raise TraceError("%s is cut: its last line isn't whole" % self._name) from None
            is_known = False
        if not is_known:
            raise self.unknown()
        return record

    def unknown(self) -> TraceError:
        return TraceError(
            "%s is no heap dump of Ruby: it has a line that ObjectSpace.dump_all doesn't write" % self._name
        )

    def address(self, text: Any) -> int:
        """An address as a number."""
        try:
            return int(text, 16)
        except (TypeError, ValueError):
            raise self.unknown() from None

    def references(self, record: Record) -> List[int]:
        """The addresses of what an object or a kind of root refers to."""
        try:
            return [int(text, 16) for text in record.get("references", ())]
        except (TypeError, ValueError):
            raise self.unknown() from None

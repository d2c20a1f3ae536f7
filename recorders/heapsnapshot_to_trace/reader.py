"""Reads V8's .heapsnapshot piece by piece: numbers come as lists, and texts are kept only where they are asked for."""
import json
import re
from typing import Any, BinaryIO, Callable, Dict, Iterator, List, Optional, Set

from gcaudit_trace import TraceError
from gcaudit_trace.progress import Progress

PIECE = 1 << 20
LONGEST_TEXT = 400
_MOST_BYTES_OF_A_CHARACTER = 12  # two escapes, as \ud83d\ude00
_NO_BLANK = re.compile(rb"[^ \t\r\n]")
_OF_NUMBERS = b"0123456789-, \t\r\n"
_NEITHER = re.compile(rb'["\\]')
_VALUE_END = re.compile(rb'["\[\]{},]')
_INNER_END = re.compile(rb'["\[\]{}]')
_WHOLE_STRING = re.compile(rb'[ \t\r\n]*"([^"\\]*(?:\\.[^"\\]*)*)"[ \t\r\n]*,', re.DOTALL)


class Reader:
    """A file of bytes from a place on, with what was read of it and not yet taken."""

    def __init__(self, file: BinaryIO, name: str, progress: Progress, step: str, size: int, start: int = 0) -> None:
        self._file = file
        self._name = name
        self._progress = progress
        self._step = step
        self._size = size
        self._data = b""
        self._at = 0
        self._read = start  # where in the file `_data` ends
        file.seek(start)

    def position(self) -> int:
        """Where in the file the next byte stands."""
        return self._read - len(self._data) + self._at

    def more(self) -> bool:
        """Reads on; what was taken is dropped. False at the end of the file."""
        piece = self._file.read(PIECE)
        self._read += len(piece)
        self._data = self._data[self._at :] + piece
        self._at = 0
        self._progress.at(self._step, self._read, self._size)
        return bool(piece)

    def cut(self) -> TraceError:
        return TraceError("%s is cut: it ends within the snapshot" % self._name)

    def wrong(self) -> TraceError:
        return TraceError("%s is no heap snapshot of V8" % self._name)

    def next_sign(self) -> bytes:
        """The next byte that is no blank, which is not taken."""
        while True:
            found = _NO_BLANK.search(self._data, self._at)
            if found is not None:
                self._at = found.start()
                return found.group()
            self._at = len(self._data)
            if not self.more():
                raise self.cut()

    def take(self, sign: bytes) -> None:
        if self.next_sign() != sign:
            raise self.wrong()
        self._at += 1

    def string(self, wanted: bool = True) -> Optional[str]:
        """The next string; of one that is longer than LONGEST_TEXT, a character more than that. None where it isn't wanted."""
        self.take(b'"')
        parts, length = [], 0
        while True:
            found = _NEITHER.search(self._data, self._at)
            if found is None:
                end, after, ends = len(self._data), len(self._data), False
            elif found.group() == b"\\":
                if found.start() + 6 > len(self._data) and self.more():
                    continue
                after = found.start() + (6 if self._data[found.start() + 1 : found.start() + 2] == b"u" else 2)
                end, ends = after, False
            else:
                end, after, ends = found.start(), found.end(), True
            if wanted and length < (LONGEST_TEXT + 1) * _MOST_BYTES_OF_A_CHARACTER:
                parts.append(self._data[self._at : end])
                length += len(parts[-1])
                is_whole = ends
            self._at = min(after, len(self._data))
            if ends:
                return self._text(b"".join(parts), is_whole) if wanted else None
            if self._at == len(self._data) and not self.more():
                raise self.cut()

    def _text(self, raw: bytes, is_whole: bool = True) -> str:
        """What stands between the quotes of a string, or its beginning."""
        try:
            text = raw.decode("utf-8", "strict" if is_whole else "ignore")
        except UnicodeDecodeError:
            raise TraceError("%s is no heap snapshot: it isn't UTF-8" % self._name) from None
        if "\\" in text:
            try:
                text = json.loads('"' + text + '"', strict=False)
            except ValueError:
                raise self.wrong() from None
        return text[: LONGEST_TEXT + 1]

    def value(self) -> Any:
        """The next JSON value, whole."""
        try:
            return json.loads(self._take_value(keeps=True))
        except (ValueError, RecursionError):
            raise self.wrong() from None

    def skip(self) -> None:
        self._take_value(keeps=False)

    def _take_value(self, keeps: bool) -> str:
        """Takes a value, by its brackets and strings."""
        parts, depth = [], 0
        self.next_sign()
        while True:
            found = (_INNER_END if depth else _VALUE_END).search(self._data, self._at)
            start = self._at
            self._at = len(self._data) if found is None else found.start()
            if keeps:
                parts.append(self._data[start : self._at].decode("utf-8", "replace"))
            if found is None:
                if not self.more():
                    raise self.cut()
                continue
            sign = found.group()
            if sign == b'"':
                text = self.string(keeps)
                if keeps:
                    parts.append(json.dumps(text))
            elif depth == 0 and sign in b",}]":
                return "".join(parts)
            else:
                depth += 1 if sign in b"{[" else -1
                self._at += 1
                if keeps:
                    parts.append(sign.decode())
            if depth == 0:
                return "".join(parts)

    def numbers(self) -> Iterator[List[int]]:
        """The numbers of an array of whole numbers, piece by piece."""
        self.take(b"[")
        left = b""
        while True:
            end = self._data.find(b"]", self._at)
            text = left + (self._data[self._at :] if end < 0 else self._data[self._at : end])
            self._at = len(self._data) if end < 0 else end + 1
            if end < 0:
                text, _, left = text.rpartition(b",")
            if text.translate(None, _OF_NUMBERS):
                raise self.wrong()
            if text and not text.isspace():
                try:
                    found = json.loads("[" + text.decode("ascii") + "]")
                except ValueError:
                    raise self.wrong() from None
                yield found
            if end >= 0:
                return
            if not self.more():
                raise self.cut()

    def strings(self, wanted: Set[int]) -> Dict[int, str]:
        """The strings of an array whose places are wanted. One that is too long is cut, and ends with its place."""
        found: Dict[int, str] = {}
        place = 0
        self.take(b"[")
        if self.next_sign() == b"]":
            self.take(b"]")
            return found
        while True:
            for whole in _WHOLE_STRING.finditer(self._data, self._at):
                if whole.start() != self._at:
                    break
                self._at = whole.end()
                if place in wanted:
                    found[place] = _cut(self._text(whole.group(1)), place)
                place += 1
            # The last one, or one that goes on behind what was read so far.
            text = self.string(place in wanted)
            if text is not None:
                found[place] = _cut(text, place)
            place += 1
            if self.next_sign() == b"]":
                self.take(b"]")
                return found
            self.take(b",")


def _cut(text: str, place: int) -> str:
    return text if len(text) <= LONGEST_TEXT else "%s~%d" % (text[:LONGEST_TEXT], place)


def read_members(reader: Reader, takers: Dict[str, Callable[[Reader], None]]) -> None:
    """Reads the members of the snapshot's object. Each named one is taken by its taker, the others are skipped."""
    seen = set()
    reader.take(b"{")
    while reader.next_sign() != b"}":
        name = reader.string()
        reader.take(b":")
        taker = None if name is None else takers.get(name)
        if taker is None:
            reader.skip()
        elif name in seen:
            raise reader.wrong()
        else:
            seen.add(name)
            taker(reader)
        if reader.next_sign() == b",":
            reader.take(b",")
    if set(takers) - seen:
        raise reader.wrong()

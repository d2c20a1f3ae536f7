"""Names as gcaudit takes them: 1 to 256 bytes of UTF-8 without control characters."""
import hashlib
from typing import Dict

MOST_BYTES = 256
_MARK_BYTES = 9  # "~" and eight hexadecimal digits


def printable(text: str) -> str:
    """The text on one line: control characters and lone surrogates are written as escapes, such as \\x0a."""
    if text.isprintable():
        return text
    text = text.encode("utf-8", "backslashreplace").decode("utf-8")
    return "".join("\\x%02x" % ord(c) if ord(c) < 0x20 or ord(c) == 0x7F else c for c in text)


def legal_name(text: str) -> str:
    """The name under which a text stands in a trace.

    A text that is too long is cut at a character and ends with "~" and a checksum of the whole, so that two
    long names with the same beginning stay two names.
    """
    name = printable(text) or "(no name)"
    encoded = name.encode("utf-8")
    if len(encoded) <= MOST_BYTES:
        return name
    front = encoded[: MOST_BYTES - _MARK_BYTES].decode("utf-8", "ignore")
    return front + "~" + hashlib.sha256(encoded).hexdigest()[:8]


def cut(text: str, most: int) -> str:
    """The text on one line, with at most so many characters."""
    text = printable(text)
    return text if len(text) <= most else text[: most - 3] + "..."


class UniqueNames:
    """Gives each thing a legal name of its own: the second of a name becomes "NAME #2"."""

    def __init__(self) -> None:
        self._given: Dict[str, int] = {}

    def name_for(self, text: str) -> str:
        name = legal_name(text)
        while name in self._given:
            self._given[name] += 1
            name = legal_name("%s #%d" % (text[:200], self._given[name]))
        self._given[name] = 1
        return name

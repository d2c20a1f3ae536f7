"""What a recorder says at run time without failing: warnings, at the place in the program that they are about."""
import sys
import warnings
from typing import Any, List, NamedTuple, Optional, Type

from .contents import is_own_frame


class HeapWarning(UserWarning):
    """Something that an assertion doesn't see, or that may not mean what it was meant to."""


class UncheckedWarning(HeapWarning):
    """A recorder asserted something and was left without a check, so nothing was said of it."""


said: Optional[List[Any]] = None  # in a forked child, what the process itself is to say


class Place(NamedTuple):
    """A line of the program."""

    file: str
    line: int

    def warn(self, text: str, kind: Type[HeapWarning] = HeapWarning) -> None:
        if said is not None:
            said.append((self, text, kind))
            return
        warnings.warn_explicit(text, kind, self.file, self.line)


def place_of_program() -> Place:
    """Where the program called the recorder."""
    frame = sys._getframe(1)
    while frame.f_back is not None and (is_own_frame(frame) or frame.f_globals.get("__name__") == "contextlib"):
        frame = frame.f_back
    return Place(frame.f_code.co_filename, frame.f_lineno)

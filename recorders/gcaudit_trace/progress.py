"""Saying on standard error what is being done, and how far it is."""
import sys
import time

from .traces.names import printable


class Progress:
    """A plain line a second on standard error, where that is a terminal; `say` is always said."""

    def __init__(self, program: str, first_after: float = 1.0) -> None:
        self._program = program
        self._shows = sys.stderr.isatty()
        self._next = time.monotonic() + first_after

    def at(self, step: str, done: int = 0, whole: int = 0) -> None:
        """What is being done now, and how far it is in bytes where that is known."""
        now = time.monotonic()
        if self._shows and now >= self._next:
            self._next = now + 1
            self.say("%s: %d of %d MB" % (step, done >> 20, whole >> 20) if whole else step)

    def following(self) -> None:
        """The references through what is left out are being followed."""
        self.at("following references through what is left out")

    def say(self, text: str) -> None:
        print("%s: %s" % (self._program, printable(text)), file=sys.stderr, flush=True)

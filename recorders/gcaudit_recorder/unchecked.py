"""Recorders that are left although gcaudit never checked what they assert."""
import os
import weakref
from typing import Any, List, Optional

from .notices import UncheckedWarning, place_of_program


class Check:
    """Whether what a recorder asserts was checked, and where the recorder was made."""

    __slots__ = ("asserted", "is_settled", "_place", "_process")

    def __init__(self) -> None:
        self.asserted = False
        self.is_settled = False  # checked, or given up, or left to a later audit
        self._place = place_of_program()
        self._process = os.getpid()

    def is_missing(self) -> bool:
        """Whether something was asserted that nobody checked. A process that was forked meanwhile has no part in it."""
        return self.asserted and not self.is_settled and self._process == os.getpid()

    def warn(self) -> None:
        """Says so, once."""
        self.is_settled = True
        text = (
            "a recorder asserted something, and gcaudit never checked it: call check(), or use audited(); "
            "or say audit_later where the trace is audited by itself"
        )
        self._place.warn(text, UncheckedWarning)


# All checks since a test runner began to look after them; None where none does, and each recorder warns when it is gone.
watched: Optional[List[Check]] = None


def check_for(recorder: Any) -> Check:
    """The check that a new recorder is to have."""
    check = Check()
    if watched is not None:
        watched.append(check)
    weakref.finalize(recorder, _is_left, check)
    return check


def _is_left(check: Check) -> None:
    if check.is_missing() and watched is None:
        check.warn()

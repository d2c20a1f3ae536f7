"""Recording a block of a program, with gcaudit at its end."""
import contextlib
import os
import tempfile
from typing import Iterator, Optional

from .recorder import Recorder, Roots
from .violation import HeapViolation


@contextlib.contextmanager
def audited(
    roots: Roots = None,
    trace: Optional[str] = None,
    program: Optional[str] = None,
    deep: bool = False,
    may_be_empty: bool = False,
    all_instances: bool = False,
    fork: bool = False,
) -> Iterator[Recorder]:
    """Records the block, runs gcaudit at its end, and raises HeapViolation with the report where it finds one.

    The trace stays at `trace`; without it, a temporary file is used, which stays only where there is a violation. The
    other words are those of Recorder and of its `check`.
    """
    path = trace
    if path is None:
        handle, path = tempfile.mkstemp(prefix="gcaudit-", suffix=".jsonl")
        os.close(handle)
    keep = trace is not None
    try:
        with Recorder(path, roots, deep, may_be_empty, fork=fork) as recorder:
            yield recorder
            recorder.check(program, all_instances)
    except HeapViolation:
        keep = True
        raise
    finally:
        if not keep:
            with contextlib.suppress(OSError):
                os.unlink(path)

"""Finding and running the program gcaudit."""
import os
import re
import shutil
import subprocess
from typing import Iterable, List, NamedTuple, Optional

from ..bundled import find_bundled
from ..errors import TraceError
from ..progress import Progress
from .report import Verdict, read_report

_PASSED = {0: "no assertion was violated", 1: "some assertion was violated"}
_LAST_LINES = ("end gcs ", "halt gc ")
_TOO_LARGE = ("TooManyObjects", "TooManySlots", "TooManyRoots")
_READ_AT_A_TIME = 1 << 20
_LONGEST_OP = (
    64  # bytes of an operation's name with its key, which may stand at the end of one piece and the start of the next
)
# What a trace must have somewhere, and what it means that it hasn't.
_NEEDED = (
    (re.compile(rb'"op"\s*:\s*"collect"'), "has no collection in it"),
    (re.compile(rb'"op"\s*:\s*"assert-'), "asserts nothing"),
    (re.compile(rb'"op"\s*:\s*"root"'), "has no root in it, so no object is reached"),
)


class Audit(NamedTuple):
    """What gcaudit said of a trace: its report, the same with the slots named, its violations, its status, its standard error."""

    report: str
    named: str
    verdicts: List[Verdict]
    status: int
    errors: str


def find_program(program: Optional[str] = None, large: bool = False) -> str:
    """Where gcaudit is: the argument, the variable GCAUDIT, this package, the PATH, or the script of the repository.

    For `large` heaps that is gcheap, and the variable GCHEAP.
    """
    name = "gcheap" if large else "gcaudit"
    asked = program or os.environ.get(name.upper())
    if asked:
        found = shutil.which(asked)
        if found is None:
            raise TraceError("there is no program %s" % asked)
        return found
    found = find_bundled(name) or shutil.which(name)
    if found is not None:
        return found
    top = os.path.abspath(__file__)
    for _ in range(4):  # reports, gcaudit_trace, recorders, and the top
        top = os.path.dirname(top)
    script = os.path.join(top, name)
    if os.path.isfile(os.path.join(top, "crates.txt")) and os.access(script, os.X_OK):
        return script
    raise TraceError("%s was not found: put it on the PATH, or its place into the variable %s" % (name, name.upper()))


def audit(
    trace: str,
    program: Optional[str] = None,
    options: Iterable[str] = (),
    progress: Optional[Progress] = None,
    large: bool = False,
) -> Audit:
    """Runs gcaudit on a trace, with further words of its command line; for `large` heaps that is gcheap.

    Where it could not read the trace to its end, that is a TraceError.
    """
    found = find_program(program, large)
    said = progress or Progress("gcaudit", 2.0)
    try:
        lines = open(trace, "rb")
    except OSError as error:
        raise TraceError("%s can't be read: %s" % (trace, error.strerror)) from None
    with lines:
        size = os.fstat(lines.fileno()).st_size
        try:
            process = subprocess.Popen([found, *options], stdin=lines, stdout=subprocess.PIPE, stderr=subprocess.PIPE)
        except OSError as error:
            raise TraceError("%s could not be run: %s" % (found, error.strerror)) from None
        with process:
            try:
                out, err = _outputs(process, lines.fileno(), size, said)
            except BaseException:
                process.kill()
                raise
    report, errors = out.decode("utf-8", "replace"), err.decode("utf-8", "replace")
    last = report.rstrip("\n").split("\n")[-1]
    if process.returncode not in _PASSED or not last.startswith(_LAST_LINES):
        why = (last if last.startswith("fault ") else "") or errors.strip().split("\n")[-1] or "no report"
        if why.endswith(_TOO_LARGE) and not large:
            why += "; --large audits larger heaps"
        raise TraceError("gcaudit did not read %s to its end (status %d): %s" % (trace, process.returncode, why))
    named = read_report(report, trace, lambda done: said.at("naming the slots", done, size))
    return Audit(report, named.named, named.verdicts, process.returncode, errors)


def need_assertions(trace: str, name: str) -> None:
    """Refuses a trace that can't have a violation whatever the program did: one without a collection, an assertion or a root."""
    missing = dict(_NEEDED)
    before = b""
    with open(trace, "rb") as file:
        while missing:
            some = file.read(_READ_AT_A_TIME)
            if not some:
                why = " and ".join(missing.values())
                raise TraceError("%s %s, so nothing was checked; --may-be-empty allows it" % (name, why))
            text = before + some
            missing = {needed: why for needed, why in missing.items() if not needed.search(text)}
            before = text[-_LONGEST_OP:]


def _outputs(process: subprocess.Popen, trace: int, size: int, progress: Progress):
    """What the program writes. It reads the file through this process's own handle, whose place says how far it is."""
    while True:
        try:
            return process.communicate(timeout=1)
        except subprocess.TimeoutExpired:
            progress.at("gcaudit reads the trace", os.lseek(trace, 0, os.SEEK_CUR), size)

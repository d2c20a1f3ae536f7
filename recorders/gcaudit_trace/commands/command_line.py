"""What the commands share: errors told in a sentence, and output that may not arrive."""
import argparse
import contextlib
import os
import signal
import sys
from typing import Any, Callable, Iterable, Iterator, List, Optional

from ..errors import TraceError
from ..progress import Progress
from ..reports.audit import Audit, audit, need_assertions
from ..traces.names import printable
from ..traces.whole_file import WholeFile
from ..version import VERSION

REFUSED = 2
_STOPPED = 128  # and the number of the signal


def run(program: str, work: Callable[[], int], about: str = "") -> int:
    """Does the work of a command, whose status is the answer; what goes wrong is said in a sentence, with the status 2.

    `about` names the file in question where an error of the system doesn't.
    """
    try:
        with _stoppable():
            status = work()
            sys.stdout.flush()
            return status
    except TraceError as error:
        return _refused(program, str(error))
    except BrokenPipeError:
        _drop_output()
        return _refused(program, "nobody reads the output any longer")
    except OSError as error:
        _drop_output()
        place = error.filename or about or "standard output"
        return _refused(program, "%s: %s" % (place, error.strerror or error))
    except MemoryError:
        return _refused(program, "out of memory")
    except KeyboardInterrupt:
        _say(program, "stopped")
        return _STOPPED + signal.SIGINT
    except _Stopped as stopped:
        _say(program, "stopped")
        return _STOPPED + stopped.number


class _Stopped(BaseException):
    """A signal came that ends the program."""

    def __init__(self, number: int) -> None:
        super().__init__(number)
        self.number = number


def _stop(number: int, _: Any) -> None:
    raise _Stopped(number)


@contextlib.contextmanager
def _stoppable() -> Iterator[None]:
    """While it lasts the signals that end a program raise, so that temporary files and gcaudit itself are ended too."""
    before = {}
    for name in ("SIGTERM", "SIGHUP"):
        with contextlib.suppress(AttributeError, ValueError):  # a system without the signal; not the first thread
            number = getattr(signal, name)
            if signal.getsignal(number) == signal.SIG_DFL:
                before[number] = signal.signal(number, _stop)
    try:
        yield
    finally:
        for number, handler in before.items():
            signal.signal(number, handler)


def keep_apart(read: Iterable[str], written: Iterable[Optional[str]]) -> None:
    """Refuses to write a file over one that is read, or over another that is written."""
    places = {os.path.realpath(path) for path in read if path != "-"}
    for path in written:
        if path is not None:
            place = os.path.realpath(path)
            if place in places:
                raise TraceError("%s would be replaced: it is read, or something else is written there" % path)
            places.add(place)


def count(text: str) -> int:
    """A word of the command line that is a number from 0 on."""
    if not (text.isascii() and text.isdigit()):
        raise argparse.ArgumentTypeError("a number from 0 on is needed, not %s" % text)
    return int(text)


def _refused(program: str, why: str) -> int:
    _say(program, why)
    return REFUSED


def _say(program: str, text: str) -> None:
    with contextlib.suppress(OSError):
        print("%s: %s" % (program, printable(text)), file=sys.stderr, flush=True)


def _drop_output() -> None:
    """What is still to be written to standard output goes nowhere, so that the interpreter doesn't try again at its end."""
    with contextlib.suppress(OSError, ValueError):
        nowhere = os.open(os.devnull, os.O_WRONLY)
        os.dup2(nowhere, sys.stdout.fileno())
        os.close(nowhere)


@contextlib.contextmanager
def output_to(path: Optional[str]) -> Iterator[Any]:
    """Where a command writes: a file that appears when it is whole, or standard output."""
    if path is None:
        yield sys.stdout
        return
    whole = WholeFile(path)
    try:
        yield whole
    except BaseException:
        whole.give_up()
        raise
    whole.finish()


def add_version(parser: argparse.ArgumentParser) -> None:
    """The word that asks for the version, which every command takes."""
    parser.add_argument("--version", action="version", version="%(prog)s " + VERSION, help="print the version")


def add_gcaudit(parser: argparse.ArgumentParser, paths: int = 100) -> None:
    """The words that say which program gcaudit is run, and how; so many violations have `paths` where nothing is said."""
    parser.add_argument(
        "--gcaudit", metavar="PROGRAM", help="the program gcaudit (default: the variable GCAUDIT, then the PATH)"
    )
    parser.add_argument(
        "--large",
        action="store_true",
        help="run gcheap, which takes larger heaps, in place of gcaudit; --gcaudit and the variable GCHEAP say where it is",
    )
    parser.add_argument(
        "--workers", metavar="N", help="how many workers trace the heap, 1 to 16; the report is the same"
    )
    parser.add_argument(
        "--paths",
        metavar="P",
        default=None if paths == 100 else str(paths),
        help="how many violations of each collection have paths, 0 to 10000 (default: %d)" % paths,
    )
    parser.add_argument(
        "--react",
        metavar="R",
        choices=("report", "halt", "force"),
        help="what to do about violations: report, halt or force",
    )
    parser.add_argument(
        "--may-be-empty",
        action="store_true",
        help="allow a trace without an assertion, a root or a collection",
    )


def audited(trace: str, asked: argparse.Namespace, progress: Progress) -> Audit:
    """What gcaudit says of a trace by these words. A trace of which it can say nothing but that all is well is refused."""
    done = audit(trace, asked.gcaudit, gcaudit_options(asked), progress, asked.large)
    if not done.verdicts and not asked.may_be_empty:
        need_assertions(trace, shown_name(asked.trace))
    return done


def shown_name(trace: str) -> str:
    """What a trace of the command line is called in a sentence."""
    return "standard input" if trace == "-" else trace


def gcaudit_options(asked: argparse.Namespace) -> List[str]:
    """The words for gcaudit's own command line."""
    found = []
    for name, most in (("workers", 16), ("paths", 10000)):
        number = getattr(asked, name)
        if number is None:
            continue
        if not (number.isascii() and number.isdigit() and int(number) <= most and (name == "paths" or int(number) > 0)):
            raise TraceError("--%s needs a number from %d to %d, not %s" % (name, name == "workers", most, number))
        found += ["--" + name, number]
    return found + (["--react", asked.react] if asked.react else [])

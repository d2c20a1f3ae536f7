"""gcaudit-jvm: asks a JVM that runs for a dump, reads and audits it; or for some dumps, and says what grows."""
import argparse
import contextlib
import os
import subprocess
import sys
import tempfile
import time
from typing import Iterator, List, Optional

from gcaudit_trace import TraceError
from gcaudit_trace.commands import command_line, growth, view
from gcaudit_trace.dumps.options import Wishes, parser_for
from gcaudit_trace.progress import Progress

from .__main__ import main as hprof_to_trace

PROGRAM = "gcaudit-jvm"
_ASSERTING = ("dead", "limit", "unshared", "owned_by")


def parser() -> argparse.ArgumentParser:
    made = argparse.ArgumentParser(
        prog=PROGRAM,
        description="Makes a running JVM write its heap, and audits it; the program needs no change. With --growth it takes several heaps, "
        "and says what increased. All other options are those of hprof_to_trace, such as --dead and --only.",
    )
    made.add_argument("pid", metavar="PID", help="the number of the process, as jcmd -l shows it")
    made.add_argument("--growth", metavar="N", type=command_line.count, help="compare N heaps, 2 or more")
    made.add_argument(
        "--every",
        metavar="SECONDS",
        type=command_line.count,
        default=60,
        help="the time between two of them (default: 60)",
    )
    made.add_argument(
        "--keep", metavar="FOLDER", help="where to keep the dumps and the trace, which are deleted otherwise"
    )
    made.add_argument(
        "--jcmd", metavar="PROGRAM", default="jcmd", help="the program jcmd of the JDK (default: from the PATH)"
    )
    made.add_argument("--html", metavar="FILE", help="write a self-contained page")
    made.add_argument("--junit", metavar="FILE", help="write JUnit XML, with a failed test for each group")
    made.add_argument("--sarif", metavar="FILE", help="write SARIF 2.1.0, with a result for each group")
    command_line.add_version(made)
    command_line.add_gcaudit(made)
    return made


def main(words: Optional[List[str]] = None) -> int:
    asked, others = parser().parse_known_args(words)

    def work() -> int:
        _need_question(asked, others)
        with _folder(asked.keep) as folder:
            if asked.growth is not None:
                return growth.main(_dumps(asked, folder))
            dump, trace = os.path.join(folder, "heap.hprof"), os.path.join(folder, "heap.jsonl")
            _dump(asked, dump)
            return hprof_to_trace([dump, trace, *others, *_large(asked)]) or view.main([trace, *_view_words(asked)])

    return command_line.run(PROGRAM, work)


def _need_question(asked: argparse.Namespace, others: List[str]) -> None:
    """Refuses before the dump what would be refused after it, and a check that asserts nothing."""
    if asked.growth is not None:
        if asked.growth < 2:
            raise TraceError("--growth compares 2 heaps or more")
        for word in (*others, *_large(asked)):
            raise TraceError("--growth takes no %s" % word)
        return
    words = parser_for(PROGRAM, "").parse_args(["dump", "trace", *others, *_large(asked)])
    if words.snapshot:
        raise TraceError("a snapshot can't be audited; hprof_to_trace makes one of a dump")
    if not any(getattr(words, name) for name in _ASSERTING):
        raise TraceError(
            "nothing is asserted, so this check would pass whatever the program holds; --dead CLASS asserts something"
        )
    Wishes(words)


@contextlib.contextmanager
def _folder(keep: Optional[str]) -> Iterator[str]:
    """Where the dumps are written. The JVM needs the whole path."""
    if keep is not None:
        os.makedirs(keep, exist_ok=True)
        yield os.path.abspath(keep)
        return
    with tempfile.TemporaryDirectory(prefix="gcaudit-") as folder:
        yield folder


def _dump(asked: argparse.Namespace, dump: str) -> None:
    if os.path.exists(dump):
        raise TraceError("%s is there already" % dump)
    try:
        done = subprocess.run(
            [asked.jcmd, asked.pid, "GC.heap_dump", dump], stdout=subprocess.PIPE, stderr=subprocess.STDOUT
        )
    except OSError as error:
        raise TraceError("%s could not be run: %s" % (asked.jcmd, error.strerror)) from None
    if done.returncode or not os.path.exists(dump):
        said = done.stdout.decode("utf-8", "replace").strip().split("\n")[-1]
        raise TraceError(
            "the JVM %s wrote no dump: %s" % (asked.pid, said or "jcmd ended with status %d" % done.returncode)
        )


def _dumps(asked: argparse.Namespace, folder: str) -> List[str]:
    """As many dumps as are asked for, some time apart."""
    progress = Progress(PROGRAM)
    dumps: List[str] = []
    for number in range(1, asked.growth + 1):
        if dumps:
            progress.at("waiting for the next dump")
            time.sleep(asked.every)
        dumps.append(os.path.join(folder, "heap-%d.hprof" % number))
        _dump(asked, dumps[-1])
    return dumps


def _large(asked: argparse.Namespace) -> List[str]:
    """The word for a large heap, which the converter and gcaudit both need."""
    return ["--large"] if asked.large else []


def _view_words(asked: argparse.Namespace) -> List[str]:
    found = _large(asked)
    for name in ("html", "junit", "sarif", "gcaudit", "workers", "paths", "react"):
        if getattr(asked, name) is not None:
            found += ["--" + name, getattr(asked, name)]
    return found


if __name__ == "__main__":
    sys.exit(main())

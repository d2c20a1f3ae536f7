"""gcaudit-fleet: audits many heaps of one program, and shows their violations as one report."""
import argparse
import os
import re
import sys
from typing import Dict, Iterable, List, Optional, Sequence, Tuple

from ..dumps.options import Wishes, add_wishes
from ..errors import TraceError
from ..progress import Progress
from ..reports.audit import find_program
from ..reports.fleet import Fleet, Part, Source, merged
from ..reports.fleet_dask import on_dask
from ..reports.fleet_forms import junit, page, sarif
from ..reports.fleet_heap import Task
from ..reports.fleet_processes import on_processes, processors
from ..traces.names import printable
from . import command_line

_PROGRAM = "gcaudit-fleet"
_OF_DUMPS = ("dead", "limit", "unshared", "owned_by", "only", "without")


def parser() -> argparse.ArgumentParser:
    made = argparse.ArgumentParser(
        prog=_PROGRAM,
        description="Audits many heaps of one program, several side by side, and groups their violations as one: in how many "
        "heaps, since when, with a sample path, and what they keep alive. What is asserted below is asserted of each "
        "dump; a trace has its own assertions. The status is 1 if a heap has a violation, 2 if none has and some "
        "could not be audited, and 0 otherwise.",
    )
    made.add_argument(
        "heaps",
        metavar="TRACE|DUMP",
        nargs="*",
        help="traces or heap dumps, which are ordered by their names, with numbers as numbers; without any, those of the table",
    )
    made.add_argument(
        "--table",
        metavar="FILE",
        help="the order of the heaps, and what each stands for, such as a version or an hour: lines of FILE, a tab and LABEL",
    )
    where = made.add_mutually_exclusive_group()
    where.add_argument(
        "--jobs",
        metavar="N",
        type=command_line.count,
        help="how many heaps are audited at a time (default: one for each processor)",
    )
    where.add_argument(
        "--dask",
        metavar="ADDRESS",
        help="audit the heaps on the workers of the Dask cluster whose scheduler is there, such as tcp://10.0.0.1:8786; "
        "each reads its heaps where they lie",
    )
    made.add_argument("--html", metavar="FILE", help="write a self-contained page")
    made.add_argument("--junit", metavar="FILE", help="write JUnit XML, with a failed test for each group")
    made.add_argument("--sarif", metavar="FILE", help="write SARIF 2.1.0, with a result for each group")
    command_line.add_gcaudit(made, paths=10000)
    add_wishes(made)
    command_line.add_version(made)
    return made


def main(words=None) -> int:
    asked = parser().parse_args(words)

    def work() -> int:
        sources = _sources(asked.heaps, asked.table)
        read = [source.path for source in sources] + ([asked.table] if asked.table else [])
        command_line.keep_apart(read, [asked.html, asked.junit, asked.sarif])
        tasks = _tasks(sources, asked)
        progress = Progress(_PROGRAM, 2.0)
        part = on_dask(tasks, asked.dask, progress) if asked.dask else _on_processes(tasks, asked, progress)
        _need_dumps(part, asked)
        fleet = Fleet([Source(*map(printable, source)) for source in sources], part)
        for path, form in ((asked.html, page), (asked.junit, junit), (asked.sarif, sarif)):
            if path is not None:
                with command_line.output_to(path) as out:
                    out.write(form(fleet))
        with command_line.output_to(None) as out:
            out.write(fleet.text())
        return fleet.status

    return command_line.run(_PROGRAM, work)


def _sources(heaps: List[str], table: Optional[str]) -> List[Source]:
    """The heaps in their order, with their labels. A heap that is named twice would count twice, and is refused."""
    labels = _read_table(table) if table is not None else {}
    named = heaps or [path for path, _ in labels.values()]
    if not named:
        raise TraceError("there is no heap to audit; name traces or dumps, or a table of them")
    places = [os.path.normpath(path) for path in named]
    _need_once(places, "%s is named twice")
    if table is None:
        return [Source(path, path) for path in sorted(named, key=_natural)]
    for path, place in zip(named, places):
        if place not in labels:
            raise TraceError("%s has no line for %s" % (table, path))
    order = {place: number for number, place in enumerate(labels)}
    versions = {label: number for number, label in enumerate(dict.fromkeys(label for _, label in labels.values()))}
    found = [(versions[labels[place][1]], order[place], path) for path, place in zip(named, places)]
    return [Source(path, labels[os.path.normpath(path)][1]) for _, _, path in sorted(found)]


def _read_table(table: str) -> Dict[str, Tuple[str, str]]:
    """The file and the label of each line of a table, by the file's place."""
    try:
        with open(table, encoding="utf-8") as lines:
            rows = [line.rstrip("\r\n").partition("\t") for line in lines if line.strip()]
    except OSError as error:
        raise TraceError("%s can't be read: %s" % (table, error.strerror or error)) from None
    except UnicodeDecodeError:
        raise TraceError("%s is no text in UTF-8" % table) from None
    for path, tab, label in rows:
        if not (path and tab and label.strip()):
            raise TraceError("%s has a line that isn't FILE, a tab and LABEL: %s" % (table, path))
    places = [os.path.normpath(path) for path, _, _ in rows]
    _need_once(places, table + " has two lines for %s")
    return {place: (path, label.strip()) for place, (path, _, label) in zip(places, rows)}


def _need_once(places: Iterable[str], sentence: str) -> None:
    seen = set()
    for place in places:
        if place in seen:
            raise TraceError(sentence % place)
        seen.add(place)


def _natural(path: str) -> List[Tuple[str, int]]:
    """What paths are ordered by: numbers in them count as numbers."""
    return [(text, int(digits or 0)) for text, digits in re.findall(r"([^0-9]*)([0-9]*)", path)]


def _tasks(sources: Sequence[Source], asked: argparse.Namespace) -> List[Task]:
    """What is to be done for each heap; what is wrong with the command line is said before."""
    wishes = argparse.Namespace(**{name: getattr(asked, name) for name in _OF_DUMPS + ("may_be_missing", "large")})
    Wishes(argparse.Namespace(snapshot=False, **vars(wishes)))
    options = tuple(command_line.gcaudit_options(asked))
    program = asked.gcaudit if asked.dask else find_program(asked.gcaudit, asked.large)
    return [
        Task(
            place,
            os.path.abspath(source.path) if asked.dask else source.path,  # a worker is in a folder of its own
            printable(source.path),
            wishes,
            program,
            options,
            asked.may_be_empty,
        )
        for place, source in enumerate(sources)
    ]


def _on_processes(tasks: Sequence[Task], asked: argparse.Namespace, progress: Progress) -> Part:
    if asked.jobs == 0:
        raise TraceError("--jobs needs a number from 1 on, not 0")
    whole = merged([])
    for done, part in enumerate(on_processes(tasks, asked.jobs or processors()), 1):
        whole.add(part)
        progress.at("%d of %d heaps audited" % (done, len(tasks)))
    return whole


def _need_dumps(part: Part, asked: argparse.Namespace) -> None:
    """Refuses assertions that no heap was asked about, since all are traces."""
    said = [name for name in _OF_DUMPS if getattr(asked, name)]
    if said and part.audited and not any(part.audited.values()) and not part.failed:
        raise TraceError(
            "--%s is for dumps, and all of these heaps are traces, which have their own assertions"
            % said[0].replace("_", "-")
        )


if __name__ == "__main__":
    sys.exit(main())

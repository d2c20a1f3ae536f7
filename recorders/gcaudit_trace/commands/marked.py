"""What the commands share that audit a dump in which a library has marked objects."""
import argparse
import json
import os
import re
import sys
from typing import BinaryIO, Callable, Dict, Iterable, List, NamedTuple, Optional, Set, Tuple

from ..dumps.later import continue_trace
from ..dumps.marks import Assertion, Marked, read_assertions
from ..errors import TraceError
from ..graphs.unreached import Unreached
from ..progress import Progress
from ..reports.audit import Audit, audit
from ..reports.groups import grouped_report
from ..reports.report import Verdict
from ..traces.opening import opened
from . import command_line

_DEAD = re.compile(r"^gc 1 dead (\d+) ", re.MULTILINE)
_COLLECT = b'{"op":"collect"}\n'

Convert = Callable[[BinaryIO, argparse.Namespace, List[Assertion], Progress, bool], Marked]


class Checked(NamedTuple):
    """What the audit of a dump found, and which collection of the trace is that of this dump."""

    audit: Audit
    collection: int

    def violations(self) -> int:
        """How many there are in the heap of this dump."""
        return sum(verdict.collection == self.collection for verdict in self.audit.verdicts)


def audit_marked(
    trace: str,
    convert: Callable[[bool], Marked],
    program: Optional[str],
    progress: Progress,
) -> Audit:
    """Has the trace written and audits it.

    Where something that must be dead is alive and no root leads to it, the trace is written again with the references from objects
    to their classes; and where none leads to it then, it gets a root of its own.
    """
    left: Set[int] = set()
    for with_classes in (False, True):
        marked = convert(with_classes)
        done = audit(trace, program, (), progress)
        left = marked.dead - set(map(int, _DEAD.findall(done.report)))
        if not left:
            return done
    unreached = Unreached(trace, marked, left)
    unreached.explain()
    if not unreached.roots:
        return done
    _add_roots(trace, unreached.roots)
    return audit(trace, program, (), progress)


def _add_roots(trace: str, roots: Iterable[Tuple[str, int]]) -> None:
    """Puts roots before the only collection of a trace."""
    with open(trace, "r+b") as file:
        file.seek(-len(_COLLECT), os.SEEK_END)
        if file.read() != _COLLECT:
            raise TraceError("%s doesn't end with a collection" % trace)
        file.seek(-len(_COLLECT), os.SEEK_END)
        seen: Dict[str, int] = {}
        for name, number in sorted(set(roots)):
            seen[name] = seen.get(name, 0) + 1
            shown = name if seen[name] == 1 else "%s #%d" % (name, seen[name])
            file.write(b'{"op":"root","name":%s,"to":%d}\n' % (json.dumps(shown).encode(), number))
        file.write(_COLLECT)


def continued(trace: str, alone: Audit, earlier: str, program: Optional[str], progress: Progress) -> Checked:
    """Puts the trace of the earlier dumps before that of this one, and audits all of it.

    The verdict stays that of this dump alone. Where the whole trace would say something else, or gcaudit would not take so many
    objects, a new trace begins with this dump.
    """
    whole = trace + ".whole"
    try:
        made = continue_trace(earlier, trace, whole)
        if made is None:
            progress.say("a new trace begins here: with the objects of the checks before there would be too many")
            return Checked(alone, 1)
        found = Checked(audit(whole, program, (), progress), made.collections)
        last = [verdict for verdict in found.audit.verdicts if verdict.collection == made.collections]
        if _told(last, {}) != _told(alone.verdicts, made.ids):
            progress.say("a new trace begins here: that of the checks before holds owners of objects that died since")
            return Checked(alone, 1)
        os.replace(whole, trace)
        return found
    finally:
        if os.path.exists(whole):
            os.unlink(whole)


def _told(verdicts: Iterable[Verdict], ids: Dict[int, int]) -> List[Tuple[str, int, str, int]]:
    """What violations say, under the ids of another trace."""
    return sorted((one.kind, ids.get(one.number, one.number), one.type_name, one.count) for one in verdicts)


def main(
    program: str,
    about: str,
    convert: Convert,
    words=None,
    add_options: Callable[[argparse.ArgumentParser], None] = lambda parser: None,
) -> int:
    """Runs a reader of marked dumps. It prints how many assertions were checked, at which collection of the trace and how many violations
    that has, and the report in groups. Its status is 1 where this dump has a violation."""
    parser = argparse.ArgumentParser(prog=program, description=about)
    parser.add_argument("dump", metavar="DUMP", help="the heap dump")
    parser.add_argument(
        "marks", metavar="MARKS", help="what is asserted of the marked objects, a line of JSON for each assertion"
    )
    parser.add_argument("trace", metavar="TRACE", help="the trace that is written")
    parser.add_argument(
        "--after", metavar="EARLIER", help="the trace of earlier dumps of the same process, which this one continues"
    )
    parser.add_argument(
        "--gcaudit", metavar="PROGRAM", help="the program gcaudit (default: the variable GCAUDIT, then the PATH)"
    )
    add_options(parser)
    asked = parser.parse_args(words)

    def work() -> int:
        read = [asked.dump, asked.marks] + ([asked.after] if asked.after else [])
        command_line.keep_apart(read, [asked.trace])
        assertions, progress = read_assertions(asked.marks), Progress(program)
        with opened(asked.dump) as file:

            def written(with_classes: bool) -> Marked:
                return convert(file, asked, assertions, progress, with_classes)

            done = Checked(audit_marked(asked.trace, written, asked.gcaudit, progress), 1)
        if asked.after:
            done = continued(asked.trace, done.audit, asked.after, asked.gcaudit, progress)
        sys.stdout.write(
            "checked %d assertions at collection %d: %d violations\n%s"
            % (
                len(assertions),
                done.collection,
                done.violations(),
                grouped_report(done.audit.named, done.audit.verdicts),
            )
        )
        return 1 if done.violations() else 0

    return command_line.run(program, work, asked.dump)

"""gcaudit-named: audits a trace and prints the report with the slots named."""
import argparse
import sys

from ..progress import Progress
from ..reports.instance_paths import with_instances
from ..traces.opening import trace_file
from . import command_line

_PROGRAM = "gcaudit-named"


def parser() -> argparse.ArgumentParser:
    made = argparse.ArgumentParser(
        prog=_PROGRAM,
        description="Audits a trace with gcaudit, and prints its report with the "
        "names that the program gives to slots (attributes, keys, indexes). The status is gcaudit's.",
    )
    made.add_argument(
        "trace", metavar="TRACE", nargs="?", default="-", help="the trace; without it or for -, standard input"
    )
    made.add_argument("--output", metavar="FILE", help="where to write the report (default: standard output)")
    command_line.add_gcaudit(made)
    made.add_argument(
        "--all-instances", action="store_true", help="a path to each object of a type that has more than its limit"
    )
    command_line.add_version(made)
    return made


def main(words=None) -> int:
    asked = parser().parse_args(words)

    def work() -> int:
        command_line.keep_apart([asked.trace], [asked.output])
        progress = Progress(_PROGRAM, 2.0)
        with trace_file(asked.trace) as trace:
            done = command_line.audited(trace, asked, progress)
            text = with_instances(done, trace) if asked.all_instances else done.named
        with command_line.output_to(asked.output) as out:
            out.write(text)
        return done.status

    return command_line.run(_PROGRAM, work)


if __name__ == "__main__":
    sys.exit(main())

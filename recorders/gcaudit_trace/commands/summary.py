"""gcaudit-summary: what is in a heap by type, and what each root reaches."""
import argparse
import sys

from ..graphs.loading import last_graph
from ..progress import Progress
from ..reports.summary import summary
from . import command_line

_PROGRAM = "gcaudit-summary"


def parser() -> argparse.ArgumentParser:
    made = argparse.ArgumentParser(
        prog=_PROGRAM,
        description="Counts the objects and bytes of each type in a heap dump, or in the last collection of a trace, "
        "and what each root reaches. What something keeps alone would be freed with it.",
    )
    made.add_argument(
        "heap",
        metavar="DUMP|TRACE",
        help="an HPROF dump, a snapshot of V8, a dump of Ruby, or a trace; it may be compressed with gzip",
    )
    made.add_argument(
        "--top", metavar="N", type=command_line.count, default=20, help="how many types and roots to show (default: 20)"
    )
    made.add_argument("--output", metavar="FILE", help="where to write it (default: standard output)")
    command_line.add_version(made)
    return made


def main(words=None) -> int:
    asked = parser().parse_args(words)

    def work() -> int:
        command_line.keep_apart([asked.heap], [asked.output])
        graph = last_graph(asked.heap, Progress(_PROGRAM, 2.0))
        with command_line.output_to(asked.output) as out:
            out.write(summary(graph, asked.top))
        return 0

    return command_line.run(_PROGRAM, work)


if __name__ == "__main__":
    sys.exit(main())

"""gcaudit-growth: what increased from one heap to the next, by type, and by what holds it."""
import argparse
import sys

from ..graphs.loading import every_graph, last_graph
from ..progress import Progress
from ..reports.growth import BYTES, OBJECTS, SHOWN, growth_of
from . import command_line

_PROGRAM = "gcaudit-growth"


def parser() -> argparse.ArgumentParser:
    made = argparse.ArgumentParser(
        prog=_PROGRAM,
        description="Compares successive heaps of one program, and says which types increase from heap to heap, "
        "what holds their objects, and how much these alone keep alive.",
    )
    made.add_argument(
        "heaps",
        metavar="DUMP|TRACE",
        nargs="+",
        help="two or more heap dumps or traces, of which the last collection counts; or one trace, "
        "whose collections are compared",
    )
    made.add_argument(
        "--by",
        choices=(BYTES, OBJECTS),
        default=BYTES,
        help="what comes first: the largest increase in bytes, or in objects (default: bytes)",
    )
    made.add_argument(
        "--top",
        metavar="N",
        type=command_line.count,
        default=SHOWN,
        help="how many lines to show (default: %d)" % SHOWN,
    )
    made.add_argument("--output", metavar="FILE", help="where to write it (default: standard output)")
    command_line.add_version(made)
    return made


def main(words=None) -> int:
    asked = parser().parse_args(words)

    def work() -> int:
        command_line.keep_apart(asked.heaps, [asked.output])
        progress = Progress(_PROGRAM, 2.0)
        if len(asked.heaps) == 1:
            graphs, step = iter(every_graph(asked.heaps[0], progress)), "collection"
        else:
            graphs, step = (last_graph(path, progress) for path in asked.heaps), "dump"
        text = str(growth_of(graphs, step, asked.by, asked.top))
        with command_line.output_to(asked.output) as out:
            out.write(text + "\n")
        return 0

    return command_line.run(_PROGRAM, work)


if __name__ == "__main__":
    sys.exit(main())

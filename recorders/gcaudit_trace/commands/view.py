"""gcaudit-view: the report in groups, each with a sample path and what it keeps alive, as text, HTML, JUnit XML and SARIF."""
import argparse
import sys

from ..progress import Progress
from ..reports.html_page import page
from ..reports.junit import junit
from ..reports.sarif import sarif
from ..reports.view import view_of
from ..traces.opening import trace_file
from . import command_line

_PROGRAM = "gcaudit-view"


def parser() -> argparse.ArgumentParser:
    made = argparse.ArgumentParser(
        prog=_PROGRAM,
        description="Audits a trace with gcaudit and shows its report in groups: one for each type and shape of "
        "path, with a sample path and what it keeps alive. The status is gcaudit's.",
    )
    made.add_argument(
        "trace", metavar="TRACE", nargs="?", default="-", help="the trace; without it or for -, standard input"
    )
    made.add_argument("--html", metavar="FILE", help="write a self-contained page")
    made.add_argument("--junit", metavar="FILE", help="write JUnit XML, with a failed test for each group")
    made.add_argument("--sarif", metavar="FILE", help="write SARIF 2.1.0, with a result for each group")
    command_line.add_gcaudit(made, paths=10000)
    command_line.add_version(made)
    return made


def main(words=None) -> int:
    asked = parser().parse_args(words)

    def work() -> int:
        command_line.keep_apart([asked.trace], [asked.html, asked.junit, asked.sarif])
        with trace_file(asked.trace) as trace:
            done = command_line.audited(trace, asked, Progress(_PROGRAM, 2.0))
            view = view_of(done, trace, command_line.shown_name(asked.trace))
        for path, form in ((asked.html, page), (asked.junit, junit), (asked.sarif, sarif)):
            if path is not None:
                with command_line.output_to(path) as out:
                    out.write(form(view))
        with command_line.output_to(None) as out:
            out.write(view.text())
        return done.status

    return command_line.run(_PROGRAM, work)


if __name__ == "__main__":
    sys.exit(main())

"""Running a reader of heap dumps as a command, and what it says of objects that it left out."""
import os
import sys
from typing import Dict

from ..commands import command_line
from ..errors import TraceError
from ..graphs.left_out import LeftOut
from ..progress import Progress
from ..traces.opening import opened
from .options import Wishes, kind_of, most_of, parser_for


def main(program: str, about: str, convert, words=None) -> int:
    """Runs a reader of dumps, `convert(file, asked, progress)`; what went wrong is said in a sentence, with the status 2."""
    program = _called_as(program)
    asked = parser_for(program, about).parse_args(words)

    def work() -> int:
        if os.path.exists(asked.trace) and os.path.exists(asked.dump) and os.path.samefile(asked.dump, asked.trace):
            raise TraceError("the %s would replace the dump, %s" % (kind_of(asked), asked.dump))
        with opened(asked.dump) as file:
            try:
                convert(file, asked, Progress(program))
            except MemoryError:
                raise TraceError("out of memory; leave out more by --only or --without") from None
        return 0

    return command_line.run(program, work, asked.dump)


def _called_as(program: str) -> str:
    """The name of the command, which has another one too, in the style of the other commands."""
    name = os.path.basename(sys.argv[0])
    return name if name.startswith("gcaudit-from-") else program


def say_left_out(counts: Dict[str, int], stay: int, left: LeftOut, wishes: Wishes, progress: Progress) -> None:
    """Says how many objects were left out, of which classes most are, and how many joints stand for some of them."""
    if counts:
        progress.say("left out: %d objects (%s)" % (sum(counts.values()), most_of(counts)))
    if stay:
        progress.say(
            'joints in the %s, as "left out CLASS": %d, which stand for %d of them; several references lead through each to what is kept'
            % (wishes.kind, stay, left.stand_for())
        )

"""The command hprof_to_trace."""
import sys

from gcaudit_trace.dumps import command

from .convert import convert


def main(words=None) -> int:
    return command.main(
        "hprof_to_trace",
        "Writes the heap of an HPROF dump (jcmd PID GC.heap_dump FILE) as a trace for gcaudit.",
        convert,
        words,
    )


if __name__ == "__main__":
    sys.exit(main())

"""The command heapsnapshot_to_trace."""
import sys

from gcaudit_trace.dumps import command

from .convert import convert


def main(words=None) -> int:
    return command.main(
        "heapsnapshot_to_trace",
        "Writes the heap of a V8 snapshot (v8.writeHeapSnapshot) as a trace for gcaudit.",
        convert,
        words,
    )


if __name__ == "__main__":
    sys.exit(main())

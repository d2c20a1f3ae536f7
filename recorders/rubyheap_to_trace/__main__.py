"""The command rubyheap_to_trace."""
import sys

from gcaudit_trace.dumps import command

from .convert import convert


def main(words=None) -> int:
    return command.main(
        "rubyheap_to_trace",
        "Writes the heap of a Ruby program (ObjectSpace.dump_all) as a trace for gcaudit.",
        convert,
        words,
    )


if __name__ == "__main__":
    sys.exit(main())

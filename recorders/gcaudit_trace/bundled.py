"""The programs that a wheel made for one kind of machine brings with it."""
import os
import signal
import sys
from typing import Optional

_FOLDER = os.path.join(os.path.dirname(os.path.abspath(__file__)), "programs")


def find_bundled(name: str) -> Optional[str]:
    """The path of the program in this package, or None where the package was made without the programs."""
    path = os.path.join(_FOLDER, name)
    return path if os.access(path, os.X_OK) else None


def main() -> None:
    """Runs the program that this command is named after, in place of this process."""
    name = os.path.basename(sys.argv[0])
    # Python ignores these signals, and the program would go on ignoring them.
    for number in (signal.SIGPIPE, signal.SIGXFSZ):
        signal.signal(number, signal.SIG_DFL)
    launch = os.path.join(_FOLDER, "launch")
    os.execv(launch, [launch, name, *sys.argv[1:]])

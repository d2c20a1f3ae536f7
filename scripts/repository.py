"""What the scripts share: the crates, the programs, and whether a program is built from the sources as they are now.

A program is built in one of two ways. Proved, it is crates/NAME/out/NAME. Unproved, it is crates/NAME/out/unproved/NAME, and checks itself as it
runs. Beside each is the sum of the sources that it was built from.
"""
import contextlib
import fcntl
import hashlib
import os
import shutil
import subprocess
from pathlib import Path

TOP = Path(__file__).resolve().parent.parent
CRATES = TOP / "crates"
LIST = TOP / "crates.txt"
# What a program is compiled from, and what its proof rests on besides.
CODE = ("src", "specs", "c")
PROOFS = ("proofs",)


class Failed(Exception):
    """The build failed; what it says is for a person."""


# ---- crates


def crate_lines():
    """The line of each crate in crates.txt, by its name."""
    rows = [row.partition("#")[0].strip() for row in LIST.read_text(encoding="utf-8").splitlines()]
    return {row.split(":")[0].split()[0]: row for row in rows if row}


def crates_below(name, lines):
    """The names of the crates of this repository that a crate names."""
    return [word for word in lines[name].partition(":")[2].replace(",", " ").split() if word in lines]


def stands_on(names, lines):
    """These crates and all that they stand on, each after those that it stands on itself."""
    found = {}

    def add(crate):
        if crate not in found:
            for other in crates_below(crate, lines):
                add(other)
            found[crate] = None

    for name in names:
        add(name)
    return list(found)


def files_of(crate, parts):
    """The files in these folders of a crate, in order."""
    return sorted(os.path.join(at, name) for part in parts for at, _, names in os.walk(CRATES / crate / part) for name in names)


def sum_of(crate, parts):
    """A sum of the texts in these folders of a crate."""
    total = hashlib.sha256()
    for path in files_of(crate, parts):
        with open(path, "rb") as file:
            text = file.read()
        total.update(f"{os.path.relpath(path, CRATES)} {len(text)}\n".encode())
        total.update(text)
    return total.hexdigest()


def kit():
    """The kit's own line about itself."""
    if shutil.which("rt") is None:
        raise Failed("the command rt of the Rattle kit is not on the path")
    return subprocess.run(["rt", "version"], stdin=subprocess.DEVNULL, stdout=subprocess.PIPE, check=True, text=True).stdout.strip()


# ---- programs


def program_names():
    """The names of the programs, as programs.txt lists them."""
    rows = (TOP / "scripts" / "programs.txt").read_text(encoding="utf-8").splitlines()
    return [row.split(" ")[0] for row in rows if row and not row.startswith("#")]


class Program:
    """A program of this repository, and which sources it stands on."""

    def __init__(self, name, lines=None, kit_line=None):
        self.name = name
        self.lines = lines or crate_lines()
        if name not in self.lines or not (CRATES / name / "src" / "main.rt").is_file():
            raise Failed(f"crates.txt names no program {name!r}")
        self.kit = kit_line or kit()
        self.crates = stands_on([name], self.lines)
        out = CRATES / name / "out"
        self.proved = Built(out / name, out / "built", lambda: self.sum(CODE + PROOFS))
        self.unproved = Built(out / "unproved" / name, out / "unproved" / "built", lambda: self.sum(CODE))
        # Which crate's proof failed when the program was last to be proved, for which sources.
        self.failure = out / "not_proved"

    def sum(self, parts):
        """A sum of the kit, and of the line and the texts of each crate that the program stands on."""
        return hashlib.sha256(repr([self.kit, *((self.lines[crate], sum_of(crate, parts)) for crate in self.crates)]).encode()).hexdigest()

    def failed_crate(self):
        """The crate whose proof failed for the sources as they are now, or None."""
        told = self.failure.read_text(encoding="utf-8").splitlines() if self.failure.is_file() else []
        return told[1] if len(told) == 2 and told[0] == self.proved.sum() else None

    def note_failure(self, crate):
        self.failure.parent.mkdir(exist_ok=True)
        self.failure.write_text(f"{self.proved.sum()}\n{crate}\n", encoding="utf-8")


class Built:
    """A built program, and beside it the sum of the sources that it was built from."""

    def __init__(self, path, stamp, sum_now):
        self.path, self.stamp, self.sum = path, stamp, sum_now

    def is_current(self):
        return os.access(self.path, os.X_OK) and self.stamp.is_file() and self.stamp.read_text() == self.sum()

    def mark(self, sources):
        self.stamp.write_text(sources)

    def remove(self):
        self.path.unlink(missing_ok=True)
        self.stamp.unlink(missing_ok=True)


@contextlib.contextmanager
def one_at_a_time(path):
    """Waits until no other process builds under this file's lock."""
    lock = os.open(path, os.O_RDONLY | os.O_CREAT, 0o644)
    try:
        fcntl.flock(lock, fcntl.LOCK_EX)
        yield
    finally:
        os.close(lock)

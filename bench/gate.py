#!/usr/bin/env python3
"""Times a whole `rt ci` from nothing: processor time by crate and by kind, and the most expensive checks of each kind.

Usage: bench/gate.py [--plot FILE] [ARGUMENTS OF rt ci]     (without arguments: --anew, if this kit's rt ci has it)
The output of rt ci comes first, unchanged. Then comes, for each crate, the processor time (user and system together) of its own proof, of its
proof with its tests, and of its edits that must be refused. A check is a process `rattle` below rt ci. It is sampled five times a second,
so what it does after the last sample is missed. The whole time is that of the kernel: beyond the table it has rt ci itself, programs and tests
that ran, and what was missed. A picture of the most expensive crates goes to FILE, as SVG. Linux only. Nothing here is part of the gate.
"""
import collections
import os
import resource
import subprocess
import sys
import threading
import time
from dataclasses import dataclass
from pathlib import Path

from plot import bars
from run import need_commands

TOP = Path(__file__).resolve().parent.parent
KINDS = ("own proof", "tests", "edits", "build")
EVERY = 0.2
LISTED = 5
PLOTTED = 15
TICK = os.sysconf("SC_CLK_TCK")


@dataclass
class Check:
    """A process `rattle` with all that it started: seconds on processors so far, and when it was seen first and last."""
    crate: str
    kind: str
    what: str
    first: float
    processor: float = 0.0
    last: float = 0.0


def processes():
    """Of each process its parent, its processor time, and that of its children that have ended, in seconds."""
    found = {}
    for name in os.listdir("/proc"):
        if name.isdigit():
            try:
                with open(f"/proc/{name}/stat") as stat:
                    fields = stat.read().rpartition(")")[2].split()
            except OSError:
                continue
            user, system, of_children, system_of_children = (int(it) / TICK for it in fields[11:15])
            found[int(name)] = int(fields[1]), user + system, of_children + system_of_children, fields[19]
    return found


def words_of(pid):
    try:
        with open(f"/proc/{pid}/cmdline", "rb") as words:
            return words.read().decode(errors="replace").split("\0")[:-1]
    except OSError:
        return []


def value(words, flag):
    return words[words.index(flag) + 1] if flag in words[:-1] else ""


def check_of(pid, words):
    """What a process checks, or None where it is no check."""
    if not words or os.path.basename(words[0]) != "rattle" or len(words) < 2 or words[1] not in ("check", "build"):
        return None
    try:
        folder = os.readlink(f"/proc/{pid}/cwd")
    except OSError:
        return None
    crate, kind, what = value(words, "--crate-name"), "own proof", words[1]
    if "/rt-edit-" in folder:
        kind, what = "edits", edit_of(crate, value(words, "--incremental"))
    elif "--test" in words:
        kind = "tests"
    elif "--crate-checked" in words:
        kind = "build"
    return Check(crate, kind, what, time.monotonic())


# How many checks of edits were seen over each folder of kept work.
TRIED = collections.Counter()


def edit_of(crate, kept):
    """Which edit a check tries. Some kits give each a folder of its number, over one named seed of the crate as it stands; others try
    them in order over one folder, and the crate as it stands behind them."""
    edits = sorted(path.name for path in (TOP / "crates" / crate / "must-fail").glob("*.edit"))
    name = os.path.basename(kept)
    if not kept:
        return "an edit, from nothing"
    if name.isdigit() or name == "seed":
        number = int(name) if name.isdigit() else len(edits)
    else:
        number = TRIED[kept]
        TRIED[kept] += 1
    return edits[number] if number < len(edits) else "the crate as it stands"


class Watch(threading.Thread):
    """Looks at the checks below a process until it is told to stop."""

    def __init__(self, top):
        super().__init__(daemon=True)
        self.top, self.checks, self.stopped = top, {}, threading.Event()

    def run(self):
        while not self.stopped.wait(EVERY):
            self.look()

    def look(self):
        seen = processes()
        children = collections.defaultdict(list)
        for pid, (parent, *_) in seen.items():
            children[parent].append(pid)
        self.look_below(self.top, seen, children)

    def look_below(self, pid, seen, children):
        for child in children[pid]:
            key = child, seen[child][3]
            if key not in self.checks:
                check = check_of(child, words_of(child))
                if check is None:
                    self.look_below(child, seen, children)
                    continue
                self.checks[key] = check
            check = self.checks[key]
            check.processor = max(check.processor, whole(child, seen, children))
            check.last = time.monotonic()


def whole(pid, seen, children):
    """The processor time of a process with all that it started."""
    _, own, of_ended, _ = seen[pid]
    return own + of_ended + sum(whole(child, seen, children) for child in children[pid])


def clock(seconds):
    return f"{int(seconds) // 60}:{int(seconds) % 60:02}"


def crates_in_order():
    rows = (row.partition("#")[0].partition(":")[0].split() for row in (TOP / "crates.txt").read_text(encoding="utf-8").splitlines())
    return [row[0] for row in rows if row]


def times_of(checks):
    spent = collections.defaultdict(float)
    for check in checks:
        spent[check.crate, check.kind] += check.processor
    return spent


def plot(path, checks):
    """The crates that took most."""
    spent = times_of(checks)
    rows = [(crate, [spent[crate, kind] / 60 for kind in KINDS[:3]]) for crate in {crate for crate, _ in spent}]
    bars(path, "Processor minutes of a whole gate: the most expensive crates", KINDS[:3], sorted(rows, key=lambda row: -sum(row[1]))[:PLOTTED])


def table(checks):
    spent = times_of(checks)
    found = {crate for crate, _ in spent}
    yield "Processor time, minutes and seconds"
    yield f"| {'Crate':<18} | " + " | ".join(f"{kind:>9}" for kind in (*KINDS, "all")) + " |"
    yield "| --- |" + " ---: |" * (len(KINDS) + 1)
    for crate in [*(it for it in crates_in_order() if it in found), *sorted(found - set(crates_in_order()))]:
        times = [spent[crate, kind] for kind in KINDS]
        yield f"| {crate:<18} | " + " | ".join(f"{clock(it):>9}" for it in (*times, sum(times))) + " |"
    sums = [sum(time for (_, kind), time in spent.items() if kind == it) for it in KINDS]
    yield f"| {'all':<18} | " + " | ".join(f"{clock(it):>9}" for it in (*sums, sum(sums))) + " |"


def most_expensive(checks):
    for kind in KINDS:
        most = sorted((it for it in checks if it.kind == kind), key=lambda it: -it.processor)
        yield f"The most expensive of {len(most)} checks, {kind}:"
        for check in most[:LISTED]:
            name = f"{check.crate} ({check.what})" if kind == "edits" else check.crate
            yield f"  {clock(check.processor):>6} of processors in {clock(check.last - check.first):>6}: {name}"
    longest = max(checks, key=lambda it: it.last - it.first, default=None)
    if longest:
        yield f"The longest single check: {clock(longest.last - longest.first)}, {longest.crate}, {longest.kind} ({longest.what})"


def words_for_all():
    help_text = subprocess.run(["rt", "help"], stdin=subprocess.DEVNULL, stdout=subprocess.PIPE, stderr=subprocess.STDOUT, text=True).stdout
    return ["--anew"] if "--anew" in help_text else []


def main():
    need_commands("rt")
    words, picture = sys.argv[1:], None
    if words[:1] == ["--plot"]:
        picture, words = words[1], words[2:]
    words = words or words_for_all()
    begun = time.monotonic()
    child = subprocess.Popen(["rt", "ci", *words], cwd=TOP, stdin=subprocess.DEVNULL)
    watch = Watch(child.pid)
    watch.start()
    status = child.wait()
    watch.stopped.set()
    watch.join()
    took = time.monotonic() - begun
    used = resource.getrusage(resource.RUSAGE_CHILDREN)
    checks = list(watch.checks.values())
    print("\n".join(["", *table(checks), "", *most_expensive(checks), ""]))
    if picture:
        plot(picture, checks)
    print(f"{' '.join(['rt', 'ci', *words])} ended with status {status} after {clock(took)} on {len(os.sched_getaffinity(0))} processors;")
    print(f"processor time {clock(used.ru_utime + used.ru_stime)} (user {clock(used.ru_utime)}, system {clock(used.ru_stime)})")
    sys.exit(status)


if __name__ == "__main__":
    main()

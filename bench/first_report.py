#!/usr/bin/env python3
"""Times what a fresh clone gives first: ./gcaudit over an example, and ./test --quick.

Usage: bench/first_report.py [--report]     (--report leaves out ./test --quick)

Each line has the command, its status, the seconds by the clock, and those of all processors, user and system together. The clone is made of the
last commit in a folder of its own, so nothing that was built here is used. Proofs that rt kept on this machine make no difference, because neither
command proves anything. Linux only. Nothing here is part of the gate.
"""
import os
import resource
import subprocess
import sys
import tempfile
import time
from pathlib import Path

TOP = Path(__file__).resolve().parent.parent
REPORT = ["./gcaudit", "examples/service_day.jsonl"]
QUICK = ["./test", "--quick"]


def processor_seconds():
    used = resource.getrusage(resource.RUSAGE_CHILDREN)
    return used.ru_utime + used.ru_stime


def timed(words, clone):
    """Runs a command in the clone, and prints its last line and how long it took."""
    begun, used = time.monotonic(), processor_seconds()
    ran = subprocess.run(words, cwd=clone, stdin=subprocess.DEVNULL, stdout=subprocess.PIPE, stderr=subprocess.STDOUT, text=True, errors="replace")
    clock, processors = time.monotonic() - begun, processor_seconds() - used
    print(f"{' '.join(words)}: status {ran.returncode}, {clock:.0f} s by the clock, {processors:.0f} s of processors; {ran.stdout.strip().splitlines()[-1]}", flush=True)


def main():
    commands = [REPORT] if sys.argv[1:] == ["--report"] else [REPORT, QUICK]
    if sys.argv[1:] not in ([], ["--report"]):
        sys.exit(__doc__)
    print(f"{len(os.sched_getaffinity(0))} processors")
    for words in commands:
        # (a clone each, since the tests would use what the report built)
        with tempfile.TemporaryDirectory() as folder:
            clone = Path(folder) / "gcaudit"
            subprocess.run(["git", "clone", "--quiet", TOP, clone], check=True)
            timed(words, clone)


if __name__ == "__main__":
    main()

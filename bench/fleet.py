#!/usr/bin/env python3
"""What a fleet of heaps costs: bench/fleet.py [--heaps N] [--objects N] PROGRAM

It writes 200 traces, each of 2,000 objects, of which every tenth leaks some, and audits them by gcaudit-fleet on 1 and 4 processes and,
where the Python that runs this has the package distributed, on a Dask cluster of 4 workers on this machine. PROGRAM is the built gcaudit. It prints a
table: seconds by the clock and of the processor, and the most memory of the command itself. All must print the same report.

Nothing here is part of the gate.
"""
import argparse
import importlib.util
import json
import os
import subprocess
import sys
import tempfile
import time
from pathlib import Path

RECORDERS = Path(__file__).resolve().parent.parent / "recorders"
WORKERS = 4


def write_heap(path, objects, leaks):
    """A cache with a list of sessions, each with a buffer; those that leak must be dead."""
    sessions = objects // 2
    with open(path, "w") as trace:

        def say(**words):
            trace.write(json.dumps(words) + "\n")

        say(op="alloc", id=1, type="Cache", slots=1, bytes=64)
        say(op="alloc", id=2, type="list", slots=sessions, bytes=8 * sessions)
        for number in range(3, 3 + 2 * sessions, 2):
            say(op="alloc", id=number, type="Session", slots=1, bytes=48)
            say(op="alloc", id=number + 1, type="Buffer", slots=0, bytes=256)
        say(op="store", at=1, slot=0, to=2, label=".sessions")
        for slot in range(sessions):
            say(op="store", at=2, slot=slot, to=2 * slot + 3, label=f"[{slot}]")
            say(op="store", at=2 * slot + 3, slot=0, to=2 * slot + 4, label=".buffer")
        say(op="root", name="cache", to=1)
        for slot in range(leaks):
            say(op="assert-dead", id=2 * slot + 3)
        say(op="assert-instances", type="Cache", limit=1)
        say(op="collect")


def measured(words, environment, folder):
    """The report of a command, its seconds by the clock, those of the processor and its most megabytes, without those of Dask's workers."""
    began = time.monotonic()
    with open(folder / "said", "wb") as said:
        child = subprocess.Popen(words, env=environment, stdout=said, cwd=folder)
        _, status, used = os.wait4(child.pid, 0)
    child.returncode = os.waitstatus_to_exitcode(status)
    if child.returncode not in (0, 1):
        sys.exit(f"{' '.join(map(str, words))} ended with {child.returncode}")
    return (folder / "said").read_text(), time.monotonic() - began, used.ru_utime + used.ru_stime, used.ru_maxrss / 1024


def start_dask(name, words, environment, folder):
    command = [sys.executable, "-B", "-m", "distributed.cli.dask_" + name, *words, "--host", "127.0.0.1", "--no-dashboard"]
    return subprocess.Popen(command, env=environment, stdout=subprocess.DEVNULL, stderr=subprocess.DEVNULL, cwd=folder)


def main():
    asked = argparse.ArgumentParser(description=__doc__, formatter_class=argparse.RawDescriptionHelpFormatter)
    asked.add_argument("--heaps", type=int, default=200)
    asked.add_argument("--objects", type=int, default=2_000)
    asked.add_argument("program", type=Path)
    asked = asked.parse_args()
    with tempfile.TemporaryDirectory() as folder:
        folder = Path(folder)
        names = [f"heap-{number}.jsonl" for number in range(1, asked.heaps + 1)]
        for number, name in enumerate(names):
            write_heap(folder / name, asked.objects, number // 10 if number % 10 == 9 else 0)
        environment = dict(os.environ, PYTHONPATH=str(RECORDERS), TMPDIR=str(folder), DASK_LOGGING__DISTRIBUTED="error")
        command = [sys.executable, "-B", "-m", "gcaudit_trace.commands.fleet", *names, "--gcaudit", asked.program.resolve()]
        ways = [("1 process", ["--jobs", "1"]), ("4 processes", ["--jobs", "4"])]
        started = []
        if importlib.util.find_spec("distributed"):
            started.append(start_dask("scheduler", ["--port", "0", "--scheduler-file", folder / "where"], environment, folder))
            while not (folder / "where").exists():
                time.sleep(0.1)
            address = json.loads((folder / "where").read_text())["address"]
            for _ in range(WORKERS):
                started.append(start_dask("worker", [address, "--nthreads", "1", "--no-nanny"], environment, folder))
            ways.append((f"Dask, {WORKERS} workers", ["--dask", address]))
        try:
            print("| Where | Seconds by the clock | of the processor | Most memory of one process |\n| --- | ---: | ---: | ---: |", flush=True)
            reports = set()
            for name, words in ways:
                report, clock, processor, memory = measured(command + words, environment, folder)
                shown = f"{processor:.0f}" if words[0] == "--jobs" else "not measured"
                print(f"| {name} | {clock:.0f} | {shown} | {memory:.0f} MB |", flush=True)
                reports.add(report)
        finally:
            for process in started:
                process.kill()
                process.wait()
        if len(reports) != 1:
            sys.exit("the reports differ")


if __name__ == "__main__":
    sys.exit(main())

#!/usr/bin/env python3
"""Runs gcresident and gcaudit over services with many collections, and prints times as ratios: by the clock, and of the processors.

Usage: bench/resident.py [--small] [--gcaudit PROGRAM]     (--small: a tenth of the collections)
Both programs must be built: ./build gcaudit gcresident builds them. They take turns over the same
trace, and must write the same report. The fastest time of each counts. Nothing here is part of the gate.
"""
import os
import subprocess
import sys
import tempfile
import time

from run import PROGRAM, TOP, TRIES, alloc, need_programs, store

RESIDENT = os.path.join(TOP, "crates", "gcresident", "out", "gcresident")
WORKERS = (1, 2, 4)
STAYS = 20_000


def heap(slots):
    """A tree of objects that stay."""
    yield alloc(1, "Node", slots)
    yield '{"op":"root","name":"top","to":1}\n'
    for i in range(2, STAYS + 1):
        yield alloc(i, "Node", slots)
        yield store(i // 2, i % 2, i)


def requests(collections, each):
    """A heap of 20,000 objects that stays, and before each collection some requests that come and go."""
    yield from heap(3)
    for i in range(collections * each):
        yield alloc(STAYS + 1 + i, "Request", 1)
        yield store(1 + i * 7919 % STAYS, 2, STAYS + 1 + i)
        if i % each == each - 1:
            yield '{"op":"collect"}\n'


def quiet(collections):
    """The same heap, of which one slot changes between two collections."""
    yield from requests(collections, 1)


def busy(collections):
    """The same heap; 100 requests between two collections."""
    yield from requests(collections, 100)


def owned(collections):
    """The same heap, of which a hundred objects are asserted to be owned, so that each collection has three phases."""
    yield from heap(3)
    for i in range(1, 101):
        yield f'{{"op":"assert-ownedby","owner":{i * 100},"ownee":{i * 200}}}\n'
    for i in range(collections):
        yield alloc(STAYS + 1 + i, "Request", 1)
        yield store(1 + i * 7919 % STAYS, 2, STAYS + 1 + i)
        yield '{"op":"collect"}\n'


def small(collections):
    """A heap of some hundred objects: a run without threads."""
    for i in range(1, 100 * collections + 1):
        yield alloc(i, "Request", 1)
        yield f'{{"op":"root","name":"r{i % 10}","to":{i}}}\n'
        if i % 100 == 0:
            yield '{"op":"collect"}\n'


class Run:
    """One run of a program: its seconds by the clock and of the processors, and its report."""

    def __init__(self, command, path):
        with open(path, "rb") as trace:
            start = time.perf_counter()
            child = subprocess.Popen(command, stdin=trace, stdout=subprocess.PIPE)
            self.report = child.stdout.read()
            _, status, used = os.wait4(child.pid, 0)
            self.seconds = time.perf_counter() - start
        child.returncode = os.waitstatus_to_exitcode(status)
        self.processors = used.ru_utime + used.ru_stime


def least(runs, of):
    return min(getattr(run, of) for run in runs)


def main():
    plain = sys.argv[sys.argv.index("--gcaudit") + 1] if "--gcaudit" in sys.argv else PROGRAM
    need_programs(plain, RESIDENT)
    collections = 100 if "--small" in sys.argv else 1_000
    print(f'{"service":<10} {"workers":>7}   {"gcaudit, s":>10} {"of processors":>13}   {"gcresident / gcaudit":>20} {"of processors":>13}')
    with tempfile.TemporaryDirectory() as folder:
        path = os.path.join(folder, "trace.jsonl")
        for shape in (quiet, busy, owned, small):
            with open(path, "w") as trace:
                trace.writelines(shape(collections))
            commands = [[program, "--workers", str(workers)] for workers in WORKERS for program in (plain, RESIDENT)]
            turns = [[Run(command, path) for command in commands] for _ in range(TRIES)]
            runs = list(zip(*turns))
            differ = "" if len({run.report for turn in turns for run in turn}) == 1 else "  REPORTS DIFFER"
            for workers, ours, theirs in zip(WORKERS, runs[::2], runs[1::2]):
                times = [(least(ours, of), least(theirs, of) / least(ours, of)) for of in ("seconds", "processors")]
                print(f"{shape.__name__:<10} {workers:>7}   {times[0][0]:>10.2f} {times[1][0]:>13.2f}   {times[0][1]:>20.2f} {times[1][1]:>13.2f}{differ}", flush=True)


if __name__ == "__main__":
    main()

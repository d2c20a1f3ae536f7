#!/usr/bin/env python3
"""Times gcaudit against plain Rust over traces of large heaps, with 1, 2 and 4 workers.

Usage: bench/heaps.py [--growth] [--only TRACE ..] [--turns N] [--scale F] [--plot FILE]

Tables in Markdown go to standard output. Both programs run each trace with each number of workers, in turn, and the fastest time of each
counts: by the clock, and of all processors together. Both must write the same report. "Without reading" subtracts the time for as many lines
with almost the same members, whose numbers and names are such that they change next to nothing.
--growth       each trace at a quarter, a half and the whole of its size, with one worker
--only TRACE   only these traces; the name is what comes before a colon in a row of the table
--turns N      the number of turns (5)
--scale F      all sizes times this, for a quick look (1)
--plot FILE    a picture of gcaudit's times relative to plain Rust's, as SVG
gcaudit must be built, and cargo must be able to build bench/plain_rust. Nothing here is part of the gate.
"""
import argparse
import hashlib
import json
import os
import random
import re
import sys
import tempfile
from typing import NamedTuple

from plot import bars
from random_traces import generated
from run import PROGRAM, alloc, chain, head, need_plain_rust, need_programs, row, store, timed

WORKERS = (1, 2, 4)
COLLECT = '{"op":"collect"}\n'
START_REGION = '{"op":"start-region"}\n'
END_REGION = '{"op":"assert-alldead"}\n'
# Of each map of `owners`: itself, four entries and four values.
OBJECTS_OF_A_MAP = 9


def root(name, to):
    return f'{{"op":"root","name":"{name}","to":{to}}}\n'


def unshared(object):
    return f'{{"op":"assert-unshared","id":{object}}}\n'


def owned(owner, ownee):
    return f'{{"op":"assert-ownedby","owner":{owner},"ownee":{ownee}}}\n'


def limited(kind, limit):
    return f'{{"op":"assert-instances","type":"{kind}","limit":{limit}}}\n'


def without_collections(lines):
    return (line for line in lines if '"collect"' not in line)


# ---- the traces


def wide_tree(n):
    """A tree of four slots an object; two collections."""
    yield alloc(1, "Node", 4) + root("top", 1)
    for i in range(2, n + 1):
        yield alloc(i, "Node", 4) + store((i + 2) // 4, (i - 2) % 4, i)
    yield COLLECT * 2


def random_heap(n, edges=4, collections=2):
    """Objects each of which holds others anywhere; a root names each of the first thousand."""
    numbers = random.Random(n)
    for i in range(1, n + 1):
        yield alloc(i, "Node", edges)
    for i in range(1, min(n, 1_000) + 1):
        yield root(f"r{i}", i)
    for i in range(1, n + 1):
        for slot in range(edges):
            yield store(i, slot, 1 + int(numbers.random() * n))
    yield COLLECT * collections


def many_collections(n):
    """The same with three edges an object, and thirty collections."""
    return random_heap(n, edges=3, collections=30)


def hub(n, with_assertions=False, collections=2):
    """One object that holds all others, each in two slots."""
    yield alloc(1, "Hub", 2 * n) + root("hub", 1)
    for i in range(2, n + 2):
        yield alloc(i, "Leaf") + store(1, 2 * (i - 2), i) + store(1, 2 * (i - 2) + 1, i)
        if with_assertions:
            yield unshared(i)
    yield COLLECT * collections


def unshared_hub(n):
    """The same, each of the others asserted unshared; one collection, with a verdict on each."""
    return hub(n, with_assertions=True, collections=1)


def mesh(n):
    """Objects with three slots that hold others here and there; two collections."""
    for i in range(1, n + 1):
        yield alloc(i, "Node", 3)
        if i == 1:
            yield root("top", 1)
        else:
            yield store(i // 2, i % 2, i)
            yield store(i, 2, 1 + i * 7919 % 1_000_003 % i)
    yield COLLECT * 2


def busy_service(n):
    """A tree of so many objects that stays; requests come and go over it, and grow it by a half; fifty collections."""
    yield alloc(1, "Node", 3) + root("top", 1)
    for i in range(2, n + 1):
        yield alloc(i, "Node", 3) + store(i // 2, i % 2, i)
    between, kept = max(1, n // 45), max(1, n * 24 // 45)
    for i in range(50 * between):
        yield alloc(n + 1 + i, f"Request{i % 50}", 1) + store(1 + i % kept, 2, n + 1 + i)
        if i % between == between - 1:
            yield COLLECT


def owned_service(n):
    """A service with all assertions: sessions that a map owns, requests in regions, one config, unshared buffers; fifty collections."""
    yield alloc(1, "Config") + root("config", 1) + limited("Config", 1)
    yield alloc(2, "SessionMap", 10_000) + root("sessions", 2)
    yield alloc(3, "Bus", 1_000) + root("bus", 3)
    next_id, steps = 4, n // 10
    for step in range(steps):
        session, request, buffer = next_id, next_id + 1, next_id + 2
        next_id += 3
        yield alloc(session, "Session", 2) + store(2, step % 10_000, session) + owned(2, session)
        yield START_REGION + alloc(request, "Request", 2) + alloc(buffer, "Buffer")
        yield store(session, 0, request) + store(request, 0, buffer) + unshared(buffer)
        if step % 1_000 == 7:
            yield store(3, step // 1_000 % 1_000, buffer)
        yield store(session, 0, "null") + END_REGION
        if step % max(1, steps // 50) == max(1, steps // 50) - 1:
            yield COLLECT


def owners(n):
    """Maps with four entries, each with a value that the map owns; of each fourth map a listener holds a value too; four collections."""
    bus, maps = 1, 2
    yield alloc(bus, "Bus", n) + root("bus", bus) + alloc(maps, "Maps", n) + root("maps", maps)
    next_id = 3
    for number in range(n):
        owner = next_id
        next_id += OBJECTS_OF_A_MAP
        yield alloc(owner, "Map", 4) + store(maps, number, owner)
        for slot in range(4):
            entry, value = owner + 1 + 2 * slot, owner + 2 + 2 * slot
            yield alloc(entry, "Entry", 1) + store(owner, slot, entry)
            yield alloc(value, "Value") + store(entry, 0, value) + owned(owner, value)
        if number % 4 == 0:
            yield alloc(next_id, "Listener", 1) + store(bus, number, next_id) + store(next_id, 0, owner + 2)
            next_id += 1
    yield COLLECT * 4


def past_peak(n):
    """A chain that the first collection frees, and five hundred collections of ten objects."""
    yield from without_collections(chain(n))
    yield root("first", "null") + COLLECT
    for i in range(1, 501):
        yield alloc(n + i, "Request", 1) + root(f"r{i % 10}", n + i) + COLLECT


def small_heap(n):
    """A tree of a thousand objects, and so many collections, with a root changed before each."""
    yield from without_collections(wide_tree(1_000))
    for i in range(n):
        yield root(f"r{i % 10}", 1 + i % 1_000) + COLLECT


def slots(n):
    """Arrays of 16,384 slots, so many slots in all, of which each sixty-fourth holds an object; two collections."""
    length = min(n, 16_384)
    arrays = n // length
    for array in range(1, arrays + 1):
        yield alloc(array, "Array", length) + root(f"array{array}", array)
    next_id = arrays
    for array in range(1, arrays + 1):
        for slot in range(0, length, 64):
            next_id += 1
            yield alloc(next_id, "Element") + store(array, slot, next_id)
    yield COLLECT * 2


def open_regions(n):
    """Objects that are allocated in 64 open regions, which then end; each tenth is still held."""
    yield alloc(1, "Log", n // 10 + 1) + root("log", 1) + START_REGION * 64
    for i in range(2, n + 2):
        yield alloc(i, "Request")
        if i % 10 == 0:
            yield store(1, i // 10, i)
    yield END_REGION * 64 + COLLECT


def over_limits(n):
    """A chain of objects, each of a type of its own of which none may be."""
    for i in range(1, n + 1):
        yield alloc(i, f"Kind{i}", 1) + limited(f"Kind{i}", 0)
        yield root("first", 1) if i == 1 else store(i - 1, 0, i)
    yield COLLECT


def shared_owners(n):
    """Owners that all hold the head of one chain of so many objects, 250 for each owner; each has an ownee that it lost."""
    count = max(1, n // 250)
    for i in range(1, n + 1):
        yield alloc(i, "Link", 1)
        if i > 1:
            yield store(i - 1, 0, i)
    yield alloc(n + 1, "Owners", count) + root("owners", n + 1)
    for i in range(count):
        owner, ownee = n + 2 + 2 * i, n + 3 + 2 * i
        yield alloc(owner, "Owner", 1) + store(owner, 0, 1) + store(n + 1, i, owner)
        yield alloc(ownee, "Ownee") + root(f"ownee{i}", ownee) + owned(owner, ownee)
    yield COLLECT


def generated_heap(n):
    """The trace of so many objects that `--gen 1` audits; two collections."""
    for operation in generated(1, n):
        yield json.dumps(operation, separators=(",", ":")) + "\n"


class Trace(NamedTuple):
    lines: object
    size: int
    # How a row of a table says the size.
    of: str
    words: tuple = ()


TRACES = {
    "chain": Trace(chain, 1_000_000, "{:,} objects, 2 collections"),
    "tree": Trace(wide_tree, 1_000_000, "{:,} objects of four slots, 2 collections"),
    "random": Trace(random_heap, 1_000_000, "{:,} objects of four edges, 2 collections"),
    "hub": Trace(unshared_hub, 1_048_575, "{:,} leaves, each held twice and unshared"),
    "service": Trace(busy_service, 45_000, "{:,} objects that stay, and requests, half as many, 50 collections"),
    "owned service": Trace(owned_service, 100_000, "{:,} operations of all kinds, 50 collections"),
    "owners": Trace(owners, 20_000, "{:,} owners of four values each, 4 collections"),
    "many collections": Trace(many_collections, 500_000, "{:,} objects of three edges, 30 collections"),
    "past a peak": Trace(past_peak, 1_048_575, "{:,} objects, then 500 collections of ten"),
    "small heap": Trace(small_heap, 5_000, "{:,} collections of 1,000 objects"),
    "slots": Trace(slots, 16_777_216, "{:,} in arrays"),
    "open regions": Trace(open_regions, 500_000, "{:,} objects in 64 of them"),
    "over limits": Trace(over_limits, 65_536, "{:,} objects in a chain, with 10,000 paths", ("--paths", "10000")),
    "shared owners": Trace(shared_owners, 100_000, "{:,} objects, all held by an owner for each 250"),
    "generated": Trace(generated_heap, 500_000, "{:,} objects, as --gen 1 makes them, 2 collections"),
}


# ---- reading alone

ALLOC = re.compile(r'"alloc","id":(\d+),"type":"([^"]*)","slots":\d+')
ROOT = re.compile(r'("root","name":"[^"]*","to":)\d+')
TYPE = re.compile(r'"type":"[^"]*"')
DIGIT = re.compile(r"\d")
NUMBER = re.compile(r'"(at|to|id|owner|ownee|slot)":(\d+)')


def as_long(found):
    """The first slot; or an id of one of the objects that are there, with as many digits, the ownee's another than the owner's."""
    name, number = found.groups()
    if name == "slot":
        return '"slot":0'
    return f'"{name}":{2 if name == "ownee" else 1}{"0" * (len(number) - 1)}'


def still(text):
    """Lines as long, to a few bytes, and with the same members, to a few, which change next to nothing."""
    text = ALLOC.sub(r'"assert-instances","type":"\2","limit":\1', text.replace(COLLECT, ""))
    text = ROOT.sub(r"\1null", text)
    return NUMBER.sub(as_long, TYPE.sub(lambda found: DIGIT.sub("0", found[0]), text))


def few_objects():
    """What the numbers of `still` name."""
    for zeros in range(10):
        for first in "12":
            yield alloc(first + "0" * zeros, "Node", 1)


def write_traces(trace, size, whole, still_one):
    """Writes a trace and its still lines to these files, and answers how many lines it has."""
    lines = 0
    with open(whole, "w") as file, open(still_one, "w") as other:
        other.writelines(few_objects())
        for text in trace.lines(size):
            lines += text.count("\n")
            file.write(text)
            other.write(still(text))
    return lines


# ---- measuring


class Least(NamedTuple):
    """The least that some runs of one command took, and their peak of memory in MB."""
    clock: float
    processors: float
    peak: float

    def without(self, other):
        return Least(self.clock - other.clock, self.processors - other.processors, self.peak)


class Measured(NamedTuple):
    """One trace: what it took with each number of workers, and reading it."""
    ours: list
    its: list
    our_reading: Least
    its_reading: Least
    is_same: bool

    def ratios(self, number):
        """Beside plain Rust by the clock and by the processors, with reading and then without it."""
        ours, its = self.ours[number], self.its[number]
        for mine, other in ((ours, its), (ours.without(self.our_reading), its.without(self.its_reading))):
            yield share(mine.clock, other.clock)
            yield share(mine.processors, other.processors)


def summed(run):
    """The same with a sum of its output: the outputs of all runs would fill the memory."""
    return run._replace(output=hashlib.sha256(run.output).digest())


def least(runs):
    return Least(min(run.seconds for run in runs), min(run.processors for run in runs), max(run.peak for run in runs) / 1024)


def measured(trace, files, plain, turns, workers):
    """Runs everything over a trace, in turn."""
    whole, still_one = files
    commands = [([program, "--workers", str(number), *trace.words], whole) for number in workers for program in (PROGRAM, plain)]
    commands += [([PROGRAM], still_one), ([plain], still_one)]
    runs = list(zip(*([summed(timed(command, path)) for command, path in commands] for _ in range(turns))))
    *audits, our_reading, its_reading = map(least, runs)
    is_same = len({(run.status, run.output) for tries in runs[:-2] for run in tries}) == 1
    if any(run.status != 0 for tries in runs[-2:] for run in tries):
        sys.exit("reading alone ended with a fault")
    return Measured(audits[::2], audits[1::2], our_reading, its_reading, is_same)


def share(part, whole):
    """A ratio, where there is enough to make one of."""
    return f"{part / whole:.2f}" if part > 0 and whole > 0.002 else ""


# What `Measured.ratios` gives.
BESIDE = ["clock / plain Rust", "processors / plain Rust", "without reading: clock", "without reading: processors"]
# What `short_row` gives.
SHORT = [
    "Trace",
    "Lines",
    "1 worker, s",
    "/ plain Rust",
    "without reading",
    "2 workers / 1",
    "4 workers / 1",
    "4 / plain Rust's 4",
    "Peak MB",
    "/ plain Rust's",
]


def compare(traces, plain, options):
    """The table of workers, and a shorter one behind it."""
    head(["Trace", "Workers", "Clock, s", "Processors, s", *BESIDE, "Peak MB", "of plain Rust"], "TABLES.md: Large heaps")
    short, plotted = [], []
    with tempfile.TemporaryDirectory() as folder:
        files = [os.path.join(folder, name) for name in ("trace", "still")]
        for name, trace in traces.items():
            size = max(1, int(trace.size * options.scale))
            lines = write_traces(trace, size, *files)
            found = measured(trace, files, plain, options.turns, WORKERS)
            label = f"{name}: {trace.of.format(size)}" + ("" if found.is_same else " (THE REPORTS DIFFER)")
            for number, workers in enumerate(WORKERS):
                ours, its = found.ours[number], found.its[number]
                times = (f"{ours.clock:.2f}", f"{ours.processors:.2f}", *found.ratios(number))
                row("the same" if number else label, str(workers), *times, f"{ours.peak:.1f}", f"{its.peak:.1f}")
            short.append(short_row(name, lines, found))
            plotted.append((name, [ours.clock / its.clock for ours, its in zip(found.ours, found.its)]))
    head(SHORT, "README.md: Large heaps")
    for cells in short:
        row(*cells)
    if options.plot:
        columns = [f"{workers} worker{'s' * (workers > 1)}" for workers in WORKERS]
        bars(options.plot, "Time of gcaudit by the clock, relative to plain Rust with as many workers", columns, plotted, mark=1)


def short_row(name, lines, found):
    """By the clock: the times with 2 and 4 workers are parts of that with one, and those with 4 of plain Rust's with 4."""
    ours, its = found.ours, found.its
    with_reading, _, without, _ = found.ratios(0)
    gains = [share(run.clock, ours[0].clock) for run in ours[1:]]
    peaks = (f"{ours[0].peak:.1f}", share(ours[0].peak, its[0].peak))
    return (name, f"{lines:,}", f"{ours[0].clock:.2f}", with_reading, without, *gains, share(ours[-1].clock, its[-1].clock), *peaks)


def grow(traces, plain, options):
    """The table of growth."""
    head(["Trace", "Size", "Clock, s", "Processors, s", "/ half the size", *BESIDE, "Peak MB", "of plain Rust"], "TABLES.md: Growth of large heaps")
    plotted = []
    with tempfile.TemporaryDirectory() as folder:
        files = [os.path.join(folder, name) for name in ("trace", "still")]
        for name, trace in traces.items():
            before = []
            for size in (max(1, int(trace.size * options.scale * part)) for part in (0.25, 0.5, 1)):
                write_traces(trace, size, *files)
                found = measured(trace, files, plain, options.turns, WORKERS[:1])
                ours, its = found.ours[0], found.its[0]
                label = name + ("" if found.is_same else " (THE REPORTS DIFFER)")
                twice = share(ours.processors, before[-1]) if before else ""
                before.append(ours.processors)
                times = (f"{ours.clock:.2f}", f"{ours.processors:.2f}", twice, *found.ratios(0))
                row(label, f"{size:,}", *times, f"{ours.peak:.1f}", f"{its.peak:.1f}")
            plotted.append((name, [later / earlier for earlier, later in zip(before, before[1:])]))
    if options.plot:
        columns = ("from a quarter to a half", "from a half to the whole")
        bars(options.plot, "Processor time of a trace relative to half of it", columns, plotted, mark=2)


def read_words():
    if "--help" in sys.argv[1:]:
        print(__doc__)
        sys.exit()
    parser = argparse.ArgumentParser(usage="bench/heaps.py [options], as bench/heaps.py --help says", add_help=False)
    parser.add_argument("--growth", action="store_true")
    parser.add_argument("--only", nargs="+", default=list(TRACES))
    parser.add_argument("--turns", type=int, default=5)
    parser.add_argument("--scale", type=float, default=1)
    parser.add_argument("--plot")
    options = parser.parse_args()
    unknown = [name for name in options.only if name not in TRACES]
    if unknown:
        sys.exit(f"no such trace: {', '.join(unknown)}; there are {', '.join(TRACES)}")
    return options


def main():
    options = read_words()
    need_programs(PROGRAM)
    plain = need_plain_rust()
    traces = {name: TRACES[name] for name in TRACES if name in options.only}
    (grow if options.growth else compare)(traces, plain, options)


if __name__ == "__main__":
    main()

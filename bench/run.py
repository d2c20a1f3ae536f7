#!/usr/bin/env python3
"""Times gcaudit over large traces, against plain Rust and `wc -l`; and the reading of lines alone.

Usage: bench/run.py [--small] [--turns N] [--before PROGRAM] [--plot FILE] [--plot-growth FILE] [--plot-memory FILE]
       bench/run.py --reading [--full] [--small] [--turns N] [--plot FILE]
       bench/run.py --shape jvm [--objects N ..] [--classes N ..] [--turns N] [--before PROGRAM]

The first prints lines and megabytes a second and peaks of memory. Each trace is run at one size and at twice that size, so that the ratio
of the two times can be read. `wc -l` over the same file, in the same run, is the yardstick for the machine. If cargo can build it, the
plain Rust program in bench/plain_rust runs over the same file as well, and must write the same report. Once more it only reads the lines with
serde into a struct that borrows, and once it builds serde_json's `Value` for each. The tables of README.md and TABLES.md come after that, in
Markdown.
--reading             lines of some kinds that change next to nothing: gcaudit with 1, 2 and 4 workers, against plain Rust that only reads them
                      and `wc -l`, which have one each; by the clock, and the time of all processors with it. Ratios are the median of
                      those of each turn
--full                as many copies of each program at once as fill the processors, half as many with two workers; its time is the mean of theirs.
                      If processors are hyperthreads, two to a core, one is up to twice as fast while the other idles. Then a program alone
                      can't be compared with four threads
--shape jvm           the heap that is like a JVM's of bench/plain_rust (`jvm_like`), with one worker: gcaudit, if it is built and the heap is within
                      its limits, and plain Rust with `--large`. Ratios are the median of those of each turn
--objects N ..        each heap of that shape with so many objects (1,000,000)
--classes N ..        and of so many classes (2,000)
--small               a tenth of the sizes
--turns N             the number of turns; the fastest time counts (5)
--before PROGRAM      another program, for example an earlier build, over the same traces in turn: the last columns say how many times as
                      long it took, and its peak of memory
--plot FILE           a picture of the times relative to plain Rust, as SVG; with --reading, relative to both ways of plain Rust with one
                      worker, and to plain Rust in one pass with four
--plot-growth FILE    a picture of the time of each trace relative to half of it
--plot-memory FILE    a picture of the peaks of memory
gcaudit must be built: ./build gcaudit builds it. Nothing here is part of the gate.
"""
import argparse
import os
import shutil
import statistics
import subprocess
import sys
import tempfile
import threading
import time
from concurrent.futures import ThreadPoolExecutor
from typing import NamedTuple

from plot import bars

TOP = os.path.dirname(os.path.dirname(os.path.abspath(__file__)))
PROGRAM = os.path.join(TOP, "crates", "gcaudit", "out", "gcaudit")
PLAIN_RUST = os.path.join(TOP, "bench", "plain_rust")
# Where Debian's packages put the sources of crates; bench/README.md names those that are wanted.
DEBIAN_SOURCES = "/usr/share/cargo/registry"
TRIES = 5


def alloc(id, kind, slots=0):
    return f'{{"op":"alloc","id":{id},"type":"{kind}","slots":{slots}}}\n'


def store(at, slot, to):
    return f'{{"op":"store","at":{at},"slot":{slot},"to":{to}}}\n'


def chain(n):
    """Objects that hold one another in a row, the first of which a root names; two collections."""
    yield alloc(1, "Link", 1)
    yield '{"op":"root","name":"first","to":1}\n'
    for i in range(2, n + 1):
        yield alloc(i, "Link", 1)
        yield store(i - 1, 0, i)
    yield '{"op":"collect"}\n{"op":"root","name":"first","to":null}\n{"op":"collect"}\n'


def tree(n):
    """A binary tree; two collections."""
    yield alloc(1, "Node", 2)
    yield '{"op":"root","name":"top","to":1}\n'
    for i in range(2, n + 1):
        yield alloc(i, "Node", 2)
        yield store(i // 2, i % 2, i)
    yield '{"op":"collect"}\n{"op":"collect"}\n'


def sparse(n):
    """The tree with ids that rise by 4,096 at each step."""
    yield alloc(4096, "Node", 2)
    yield '{"op":"root","name":"top","to":4096}\n'
    for i in range(2, n + 1):
        yield alloc(4096 * i, "Node", 2)
        yield store(4096 * (i // 2), i % 2, 4096 * i)
    yield '{"op":"collect"}\n{"op":"collect"}\n'


def collections(n):
    """A collection after every 100 short-lived objects; each object is asserted dead while a root still names it."""
    for i in range(1, n + 1):
        yield alloc(i, f"Request{i % 50}", 1)
        yield f'{{"op":"root","name":"r{i % 10}","to":{i}}}\n'
        yield f'{{"op":"assert-dead","id":{i}}}\n'
        if i % 100 == 0:
            yield '{"op":"collect"}\n'


def roots(n):
    """Many root names, set, replaced and taken away."""
    yield alloc(1, "Shared", 0)
    for i in range(n):
        yield f'{{"op":"root","name":"name-{(i * 7919) % 60000}","to":{"1" if i % 3 else "null"}}}\n'
    yield '{"op":"collect"}\n'


def names(n):
    """Many types."""
    for i in range(1, n + 1):
        yield alloc(i, f"type-{(i * 7919) % 60000}")
    yield '{"op":"collect"}\n'


def long_names(n):
    """65,000 types whose names are as long as a name may be, and differ in their last bytes only.

    It is the worst for a map that goes by the order of names: each comparison reads two names to their ends.
    """
    prefix = "n" * (256 - 8)
    for i in range(1, n + 1):
        yield alloc(i, f"{prefix}{(i * 7919) % 65000:08}")
    yield '{"op":"collect"}\n'


def lone_roots(n):
    """Root names set in rising order, of which 255 of each 256 are taken away again: few are left, far apart."""
    yield alloc(1, "Shared", 0)
    for i in range(n):
        yield f'{{"op":"root","name":"name-{i:08}","to":1}}\n'
        if i % 256:
            yield f'{{"op":"root","name":"name-{i:08}","to":null}}\n'
    yield '{"op":"collect"}\n'


def service(n):
    """Requests that come and go over a heap of 50,000 objects that stays; a collection after each 2,000 operations."""
    stays = 50_000
    yield alloc(1, "Node", 3)
    yield '{"op":"root","name":"top","to":1}\n'
    for i in range(2, stays + 1):
        yield alloc(i, "Node", 3)
        yield store(i // 2, i % 2, i)
    for i in range(n // 2):
        yield alloc(stays + 1 + i, f"Request{i % 50}", 1)
        yield store(1 + i * 7919 % stays, 2, stays + 1 + i)
        if i % 1_000 == 999:
            yield '{"op":"collect"}\n'


# ---- lines that change next to nothing

# The objects that these lines name.
FIRST, OBJECTS = 100_001, 1_000


def repeated(line):
    """Lines that name one of the objects in turn, so many."""
    def lines(n):
        yield from (alloc(FIRST + i, "Node", 16) for i in range(OBJECTS))
        yield from (line(FIRST + i % OBJECTS) + "\n" for i in range(n))

    return lines


LINES = {
    "of 48 bytes": repeated(lambda i: f'{{"op":"store","at":{i},"slot":10,"to":{i}}}'),
    "of 300 bytes": repeated(lambda i: f'{{"op":"assert-instances","type":"{"n" * 249}{i}","limit":1}}'),
    "with blanks": repeated(lambda i: f'{{"op": "store", "at": {i}, "slot": 10, "to": {i}}}'),
    "keys in another order": repeated(lambda i: f'{{"to":{i},"slot":10,"at":{i},"op":"store"}}'),
    "escapes": repeated(lambda i: f'{{"op":"root","n\\u0061me":"gr\\u00fc\\u00dfe/\\"{i}\\"","to":{i}}}'),
    "floats": repeated(lambda i: f'{{"op":"store","at":{i},"slot":10,"to":{i},"seconds":{i}.25e-3,"share":0.5}}'),
    "nested values": repeated(lambda i: f'{{"op":"store","at":{i},"slot":10,"to":{i},"in":{{"file":["a.c",{{"line":[1,2,null,true]}}]}}}}'),
    "keys twice": repeated(lambda i: f'{{"op":"store","at":1,"at":{i},"slot":0,"slot":10,"to":{i}}}'),
    "long names": repeated(lambda i: f'{{"op":"root","name":"{"ü" * 125}{i}","to":null}}'),
    "unknown keys": repeated(lambda i: f'{{"op":"store","at":{i},"slot":10,"to":{i},"file":"main.c","line":{i}}}'),
    "twelve keys": repeated(lambda i: f'{{"op":"store","a":1,"b":2,"c":3,"d":4,"e":5,"f":6,"g":7,"h":8,"at":{i},"slot":10,"to":{i}}}'),
}


# ---- running


class Run(NamedTuple):
    """One run of a program. The peak of its memory is in KiB; `processors` is the time of all processors together."""
    seconds: float
    peak: int
    status: int
    output: bytes
    processors: float


def watch_memory(child, peaks):
    """Appends the process's peak of resident memory, in KiB, every 2 ms until it ends.

    What wait4 reports won't do: it counts the memory of this script, from before the child became the program.
    """
    while child.returncode is None:
        try:
            with open(f"/proc/{child.pid}/status") as status:
                peaks.extend(int(line.split()[1]) for line in status if line.startswith("VmHWM:"))
        except (FileNotFoundError, ProcessLookupError):
            return
        time.sleep(0.002)


def timed(command, path):
    peaks = [0]
    with open(path, "rb") as trace:
        start = time.perf_counter()
        child = subprocess.Popen(command, stdin=trace, stdout=subprocess.PIPE)
        watcher = threading.Thread(target=watch_memory, args=(child, peaks))
        watcher.start()
        output = child.stdout.read()
        child.stdout.close()
        _, status, used = os.wait4(child.pid, 0)
        seconds = time.perf_counter() - start
        child.returncode = os.waitstatus_to_exitcode(status)
        watcher.join()
        return Run(seconds, peaks[-1], child.returncode, output, used.ru_utime + used.ru_stime)


def timed_at_once(command, path, copies):
    """So many runs at a time, as one whose times are the means of theirs."""
    with ThreadPoolExecutor(copies) as pool:
        runs = list(pool.map(lambda _: timed(command, path), range(copies)))
    times = {name: statistics.mean(getattr(run, name) for run in runs) for name in ("seconds", "processors")}
    return runs[0]._replace(status=max(run.status for run in runs), **times)


def build_plain_rust():
    """The plain Rust program, and nothing; or nothing, and why it can't be built. The other programs of its folder stand beside it."""
    if shutil.which("cargo") is None:
        return None, "there is no cargo"
    command = ["cargo", "build", "--release", "--quiet", "--target-dir", "target"]
    if os.path.isdir(DEBIAN_SOURCES):
        command += ["--offline", "--config", 'source.crates-io.replace-with="debian"']
        command += ["--config", f'source.debian.directory="{DEBIAN_SOURCES}"']
    built = subprocess.run(command, cwd=PLAIN_RUST, stdout=subprocess.DEVNULL, stderr=subprocess.PIPE, text=True)
    if built.returncode != 0:
        return None, f"cargo can't build it ({(built.stderr.strip().splitlines() or ['it says nothing'])[0]})"
    return os.path.join(PLAIN_RUST, "target", "release", "plain_rust"), None


def plain_rust():
    """The plain Rust program, built, or nothing where it can't be built."""
    return build_plain_rust()[0]


def need_plain_rust():
    """The same, and it ends the script with a sentence where it can't be built."""
    built, why = build_plain_rust()
    if built is None:
        sys.exit(f"bench/plain_rust is not there: {why}")
    return built


def in_turns(commands, path, turns, copies=None):
    """The runs of each command, so many of it at a time; they take turns, since a shared machine is faster at one moment than at another."""
    copies = copies or [1] * len(commands)
    return list(zip(*([timed_at_once(command, path, count) for command, count in zip(commands, copies)] for _ in range(turns))))


def least(runs):
    return min(runs, key=lambda run: run.seconds)


def best(commands, path, turns=TRIES):
    """Of each command the run of the least time."""
    return [least(runs) for runs in in_turns(commands, path, turns)]


def median_part(runs, others, value):
    """A value of the runs relative to that of the others: the median of the ratios of each turn."""
    return statistics.median(value(run) / value(other) for run, other in zip(runs, others))


def need_programs(*programs):
    """Ends the script with a sentence where a program isn't built."""
    for program in programs:
        if not os.access(program, os.X_OK):
            sys.exit(f"{os.path.relpath(program, TOP)} is not there: ./build {os.path.basename(program)} builds it")


def need_commands(*names):
    """Ends the script with a sentence where the machine lacks a command."""
    for name in names:
        if shutil.which(name) is None:
            sys.exit(f"the command {name} is not there")


# ---- the tables


SHAPES = [
    (chain, 200_000),
    (tree, 250_000),
    (sparse, 250_000),
    (collections, 150_000),
    (roots, 250_000),
    (names, 250_000),
    (long_names, 130_000),
    (lone_roots, 130_000),
    (service, 100_000),
]
# What README and TABLES call them, where it isn't their name.
CALLED = {"sparse": "sparse ids", "names": "many types"}
SAID = {
    "chain": "chain: objects in a row",
    "sparse": "sparse: the tree, with ids that rise by 4,096",
    "collections": "collections: 100 objects between two",
    "roots": "roots: names set, replaced and taken away",
    "names": "names: many types",
    "long names": "long names of 250 bytes",
    "service": "service: large heaps, some collections",
}
# The objects that gcaudit takes.
MOST_OBJECTS = 1_048_576
# Of the table of reading.
WORKERS_THAT_READ = (1, 2, 4)
BESIDE_READING = ["/ plain Rust by `Value`", "/ in one pass", "/ `wc -l`"]
# The columns of the first table, with their widths; negative where the words are on the left.
COLUMNS = {
    "trace": -12,
    "lines": 9,
    "MB": 6,
    "lines/s": 10,
    "MB/s": 6,
    "peak MB": 8,
    "x wc -l": 8,
    "x plain Rust": 12,
    "x only read": 11,
    "x by Value": 10,
    "twice": 6,
    "earlier": 8,
    "its MB": 7,
    "end": -1,
}


def show(*cells):
    print(" ".join(f"{cell:<{-width}}" if width < 0 else f"{cell:>{width}}" for cell, width in zip(cells, COLUMNS.values())), flush=True)


def beside(ours, its):
    """How many times as long we took, where both wrote the same."""
    return f"{ours.seconds / its.seconds:.2f}" if ours.output == its.output else "DIFFERS"


class Timed(NamedTuple):
    """One trace, and the least run of each program over it: `plains` are of plain Rust, of it with only reading, and that by `Value`."""
    name: str
    lines: int
    megabytes: float
    counted: Run
    ours: Run
    plains: list
    earlier: Run


def time_trace(shape, n, path, plain, options):
    with open(path, "w") as trace:
        trace.writelines(shape(n))
    commands = [["wc", "-l"], [PROGRAM]]
    commands += [[plain], [plain, "--only-read"], [plain, "--only-read", "--value"]] if plain else []
    commands += [[options.before]] if options.before else []
    counted, ours, *others = best(commands, path, options.turns)
    earlier = others.pop() if options.before else None
    name, lines = shape.__name__.replace("_", " "), int(counted.output.split()[0])
    return Timed(name, lines, os.path.getsize(path) / 1e6, counted, ours, others, earlier)


def show_row(found, half):
    """The row of a trace; of the first size there is no half."""
    ours = found.ours
    speeds = (f"{found.lines / ours.seconds:.0f}", f"{found.megabytes / ours.seconds:.1f}")
    plains = ("", "", "")
    if found.plains:
        plain, *reading = found.plains
        plains = (beside(ours, plain), *(f"{ours.seconds / other.seconds:.2f}" for other in reading))
    twice = f"{ours.seconds / half.ours.seconds:.2f}" if half else ""
    earlier = (beside(found.earlier, ours), f"{found.earlier.peak / 1024:.1f}") if found.earlier else ("", "")
    end = ours.output.decode().splitlines()[-1] if ours.output else f"status {ours.status}"
    of_machine = (f"{ours.peak / 1024:.1f}", f"{ours.seconds / found.counted.seconds:.1f}")
    show(found.name, found.lines, f"{found.megabytes:.1f}", *speeds, *of_machine, *plains, twice, *earlier, end)


def peaks_in_megabytes(*runs):
    return [run.peak / 1024 for run in runs]


def parts_of_plain(found):
    """Our time beside plain Rust, beside it when it only reads, and beside it when it reads by `Value`."""
    return [f"{found.ours.seconds / plain.seconds:.2f}" for plain in found.plains] or ["", "", ""]


def show_tables(whole):
    """The tables of the documents."""
    head(["Trace", "Lines", "Time / plain Rust", "Time / only reading", "Time / reading by `Value`"], "README.md: Beside plain Rust")
    for found, _ in whole:
        row(CALLED.get(found.name, found.name), f"{found.lines:,}", *parts_of_plain(found))
    head(["Trace", "Times as long"], "README.md: Growth")
    for found, half in whole:
        row(CALLED.get(found.name, found.name), f"{found.ours.seconds / half.ours.seconds:.2f}")
    head(["Trace", "Lines", "Peak MB", "/ plain Rust's"], "README.md: Memory")
    for found, _ in whole:
        its = share_of_peak(found.ours, found.plains[0]) if found.plains else ""
        row(CALLED.get(found.name, found.name), f"{found.lines:,}", f"{found.ours.peak / 1024:.1f}", its)
    long = ["Trace", "Lines", "Peak MB", "Time / `wc -l`", "Time / plain Rust", "Time / only reading", "Time / reading by `Value`", "Twice"]
    head(long, "TABLES.md: Beside plain Rust")
    for pair in whole:
        for found, half in ((pair[1], None), pair):
            name, twice = SAID.get(found.name, found.name), f"{found.ours.seconds / half.ours.seconds:.2f}" if half else ""
            of_machine = f"{found.ours.seconds / found.counted.seconds:.1f}"
            row(name, f"{found.lines:,}", f"{found.ours.peak / 1024:.1f}", of_machine, *parts_of_plain(found), twice)


def share_of_peak(ours, its):
    return f"{ours.peak / its.peak:.2f}"


def draw(whole, options):
    """The pictures, of pairs of the times of a trace and of half of it."""
    if options.plot:
        rows = [(found.name, [found.ours.seconds / plain.seconds for plain in found.plains[:2]]) for found, _ in whole if found.plains]
        bars(options.plot, "Time of gcaudit with one worker", ("relative to plain Rust", "relative to only reading"), rows, mark=1)
    if options.plot_growth:
        rows = [(found.name, [found.ours.seconds / half.ours.seconds]) for found, half in whole]
        bars(options.plot_growth, "Time of a trace relative to half of it", ("times as long",), rows, mark=2)
    if options.plot_memory:
        rows = [(f"{found.name}, {found.megabytes:.0f} MB", peaks_in_megabytes(found.ours, *found.plains[:1])) for found, _ in whole]
        bars(options.plot_memory, "Peak of memory in MB, and the size of the trace", ("gcaudit", "plain Rust"), rows)


def time_traces(plain, options):
    """The first table."""
    show(*COLUMNS)
    whole = []
    with tempfile.TemporaryDirectory() as folder:
        path = os.path.join(folder, "trace.jsonl")
        for shape, size in SHAPES:
            half = time_trace(shape, size // options.scale, path, plain, options)
            show_row(half, None)
            whole.append((time_trace(shape, 2 * size // options.scale, path, plain, options), half))
            show_row(*whole[-1])
    show_tables(whole)
    draw(whole, options)


def clock(run):
    return run.seconds


def processors(run):
    return run.processors


class Reading(NamedTuple):
    """Lines of one kind, and the runs over them of gcaudit with each number of workers, and of the programs that only read."""
    name: str
    megabytes: float
    ours: list
    others: list

    def beside(self, number):
        """The clock of one number of workers relative to that of each other program."""
        return [median_part(self.ours[number], other, clock) for other in self.others]


def time_lines(name, lines, path, plain, options):
    with open(path, "w", encoding="utf-8") as trace:
        trace.writelines(lines(1_000_000 // options.scale))
    commands = [[PROGRAM, "--workers", str(workers)] for workers in WORKERS_THAT_READ]
    commands += [[plain, "--only-read", "--value"], [plain, "--only-read"], ["wc", "-l"]]
    workers = [*WORKERS_THAT_READ, 1, 1, 1]
    copies = [max(1, os.cpu_count() // count) for count in workers] if options.full else None
    runs = in_turns(commands, path, options.turns, copies)
    if any(run.status != 0 for tries in runs for run in tries):
        sys.exit(f"lines {name}: one was refused: {runs[0][0].output.decode()}")
    ours, others = runs[:len(WORKERS_THAT_READ)], runs[len(WORKERS_THAT_READ):]
    return Reading(name, os.path.getsize(path) / 1e6, ours, others)


def head(columns, place=None):
    """The first lines of a table, and before them where in the documents it stands, for bench/tables.py."""
    print(f"\n<!-- {place} -->" if place else "")
    print(f"| {' | '.join(columns)} |\n| --- |{' ---: |' * (len(columns) - 1)}", flush=True)


def row(*cells):
    print(f"| {' | '.join(cells)} |", flush=True)


def ratios(values):
    return [f"{value:.2f}" for value in values]


def show_workers(found):
    """The rows of one kind of lines, one for each number of workers."""
    for number, (workers, runs) in enumerate(zip(WORKERS_THAT_READ, found.ours)):
        run = least(runs)
        times = (f"{run.seconds:.2f}", f"{run.processors:.2f}", f"{found.megabytes / run.seconds:.0f}")
        row("the same" if number else found.name, str(workers), *times, *ratios(found.beside(number)))


def short_cells(found):
    """With one worker, and with each other number the clock and the processors' time as parts of those with one."""
    one, *more = found.ours
    gains = [", ".join(ratios(median_part(runs, one, value) for value in (clock, processors))) for runs in more]
    seconds = least(one).seconds
    return [found.name, f"{found.megabytes:.0f}", f"{seconds:.2f}", f"{found.megabytes / seconds:.0f}", *ratios(found.beside(0)), *gains]


def time_reading(plain, options):
    """The table of reading with each number of workers, in Markdown, and a shorter one behind it."""
    head(["Lines", "Workers", "Clock, s", "Processors, s", "MB/s", *BESIDE_READING], "TABLES.md: Reading by more workers")
    readings = []
    with tempfile.TemporaryDirectory() as folder:
        path = os.path.join(folder, "trace.jsonl")
        for name, lines in LINES.items():
            readings.append(time_lines(name, lines, path, plain, options))
            show_workers(readings[-1])
    more = (f"{workers} workers / 1: clock, processors" for workers in WORKERS_THAT_READ[1:])
    head(["Lines", "MB", "gcaudit, s", "MB/s", *BESIDE_READING, *more], "README.md: Reading alone")
    for found in readings:
        row(*short_cells(found))
    if options.plot:
        rows = [(found.name, [*found.beside(0)[:2], found.beside(-1)[1]]) for found in readings]
        columns = ("by Value", "in one pass", f"in one pass, with {WORKERS_THAT_READ[-1]} workers")
        bars(options.plot, "Time of reading lines, relative to plain Rust", columns, rows, mark=1)


# ---- a heap like a JVM's

JVM_COLUMNS = ["Objects", "Classes", "Lines", "MB", "Program", "Clock, s", "Processors, s", "MB/s", "Peak MB", "Bytes an object", "Processors / plain Rust"]


def jvm_programs(objects, plain, options):
    """The names and commands of the programs that can audit so many objects; plain Rust is the last."""
    programs = []
    if objects <= MOST_OBJECTS and os.access(PROGRAM, os.X_OK):
        programs.append(("gcaudit", [PROGRAM]))
    if options.before:
        programs.append((os.path.basename(options.before), [options.before]))
    return [*programs, ("plain Rust", [plain, "--large"])]


def time_jvm(plain, options):
    """The table of heaps like a JVM's."""
    head(JVM_COLUMNS, "README.md: A heap like a JVM's")
    generator = os.path.join(os.path.dirname(plain), "jvm_like")
    with tempfile.TemporaryDirectory() as folder:
        path = os.path.join(folder, "trace.jsonl")
        for objects in (number // options.scale for number in options.objects):
            for classes in options.classes:
                with open(path, "wb") as trace:
                    subprocess.run([generator, "--objects", str(objects), "--classes", str(classes)], stdout=trace, check=True)
                show_jvm(objects, classes, path, jvm_programs(objects, plain, options), options.turns)


def show_jvm(objects, classes, path, programs, turns):
    """The rows of one heap, one for each program. All must write the same report."""
    (counted,) = best([["wc", "-l"]], path, 1)
    lines, megabytes = int(counted.output.split()[0]), os.path.getsize(path) / 1e6
    runs = in_turns([command for _, command in programs], path, turns)
    if len({run.output for tries in runs for run in tries}) > 1:
        sys.exit(f"the reports on {objects:,} objects of {classes:,} classes differ")
    for (name, _), tries in zip(programs, runs):
        run, peak = least(tries), max(run.peak for run in tries)
        part = f"{median_part(tries, runs[-1], processors):.2f}" if tries is not runs[-1] else ""
        times = (f"{run.seconds:.2f}", f"{min(run.processors for run in tries):.2f}", f"{megabytes / run.seconds:.0f}")
        row(f"{objects:,}", f"{classes:,}", f"{lines:,}", f"{megabytes:.0f}", name, *times, f"{peak / 1024:.0f}", f"{peak * 1024 / objects:.0f}", part)


def read_words():
    if "--help" in sys.argv[1:]:
        print(__doc__)
        sys.exit()
    parser = argparse.ArgumentParser(usage="bench/run.py [options], as bench/run.py --help says", add_help=False)
    parser.add_argument("--reading", action="store_true")
    parser.add_argument("--full", action="store_true")
    parser.add_argument("--shape", choices=["jvm"])
    parser.add_argument("--objects", type=int, nargs="+", default=[1_000_000])
    parser.add_argument("--classes", type=int, nargs="+", default=[2_000])
    parser.add_argument("--small", dest="scale", action="store_const", const=10, default=1)
    parser.add_argument("--turns", type=int, default=TRIES)
    for word in ("--before", "--plot", "--plot-growth", "--plot-memory"):
        parser.add_argument(word)
    return parser.parse_args()


def main():
    options = read_words()
    if options.shape:
        time_jvm(need_plain_rust(), options)
        return
    need_programs(PROGRAM)
    if options.reading:
        time_reading(need_plain_rust(), options)
        return
    plain, why = build_plain_rust()
    if plain is None:
        print(f"bench/plain_rust is not there, and its columns stay empty: {why}")
    time_traces(plain, options)


if __name__ == "__main__":
    main()

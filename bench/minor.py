#!/usr/bin/env python3
"""Compares minor collections with full ones, and stores in old objects with stores in young ones.

Usage: bench/minor.py [COLLECTIONS]     (1,000 by default; gcminor must be built)
A heap of 1,000,000 old objects gets 1,000 young ones before each collection, which one of the old objects holds in a chain. Every fourth
collection is full, so the two kinds alternate on one heap. The program gets the line that collects only once it has read the rest, and the time
until its answer comes is that of the collection. Nothing here is part of the gate.
"""
import os
import statistics
import subprocess
import sys
import tempfile
import time

from run import need_programs

TOP = os.path.dirname(os.path.dirname(os.path.abspath(__file__)))
PROGRAM = os.path.join(TOP, "crates", "gcminor", "out", "gcminor")
OLD, YOUNG, SLOTS = 1_000_000, 1_000, 1_000_000


def alloc(id, slots):
    return f'{{"op":"alloc","id":{id},"type":"A","slots":{slots}}}\n'


def store(at, slot, to):
    return f'{{"op":"store","at":{at},"slot":{slot},"to":{to}}}\n'


def collections(count):
    """The seconds that each collection took, by the first word of its line."""
    run = subprocess.Popen([PROGRAM], stdin=subprocess.PIPE, stdout=subprocess.PIPE, bufsize=0)
    took = {"minor": [], "full": []}

    def send(text):
        run.stdin.write(text.encode())

    def collect():
        begun = time.perf_counter()
        send('{"op":"collect"}\n')
        line = run.stdout.readline().split()
        return line[0].decode(), time.perf_counter() - begun

    for first in range(1, OLD + 1, 10_000):
        send("".join(alloc(i, 1) + store(i, 0, max(i - 1, 1)) for i in range(first, first + 10_000)))
    send(f'{{"op":"root","name":"r","to":{OLD}}}\n')
    send(alloc(OLD + 1, 1) + f'{{"op":"root","name":"s","to":{OLD + 1}}}\n')
    collect()
    id = OLD + 1
    for _ in range(count):
        send("".join(alloc(i, 1) + store(i - 1 if i > id + 1 else OLD + 1, 0, i) for i in range(id + 1, id + 1 + YOUNG)) + store(id + 1, 0, id + 2))
        id += YOUNG
        # An empty line is taken up once all before it are.
        time.sleep(0.01)
        kind, seconds = collect()
        took[kind].append(seconds)
        send(store(OLD + 1, 0, "null"))
    run.stdin.close()
    run.wait()
    return took


def stores(is_old):
    """The seconds of a run whose object of 1,000,000 slots gets a young object in each, one after another."""
    with tempfile.TemporaryFile() as trace:
        lines = [alloc(1, SLOTS), '{"op":"root","name":"r","to":1}\n', '{"op":"collect"}\n' if is_old else "\n", alloc(2, 0)]
        lines += [store(1, slot, 2) for slot in range(SLOTS)]
        trace.write("".join(lines).encode())
        best = None
        for _ in range(3):
            trace.seek(0)
            begun = time.perf_counter()
            subprocess.run([PROGRAM], stdin=trace, stdout=subprocess.DEVNULL, check=True)
            seconds = time.perf_counter() - begun
            best = seconds if best is None else min(best, seconds)
        return best


def main():
    need_programs(PROGRAM)
    took = collections(int(sys.argv[1]) if len(sys.argv) > 1 else 1000)
    minor, full = (statistics.median(took[kind]) for kind in ("minor", "full"))
    print(f"{len(took['minor'])} minor collections: {1000 * minor:.3f} ms each, in the middle; {len(took['full'])} full ones: {1000 * full:.1f} ms; ratio {full / minor:.0f}")
    old, young = stores(True), stores(False)
    print(f"{SLOTS:,} stores, with the reading of their lines: {old:.2f} s in an old object, {young:.2f} s in a young one; ratio {old / young:.2f}")


if __name__ == "__main__":
    main()

#!/usr/bin/env python3
"""Runs the built program over heaps at their limits, and compares reports with what they must be, typed out here.

Usage: bench/large_heaps.py     (some minutes; the program must be built)
A chain of 1,000,000 objects, one object that holds 1,048,575 others twice each, an owner of 100,000 ownees, and 20,000 owners
of 10 ownees each of which another owner holds too. Each runs with 1, 2 and 16 workers. Nothing here is part of the gate.
"""
import os
import subprocess
import sys
import tempfile
import time

from run import need_programs

TOP = os.path.dirname(os.path.dirname(os.path.abspath(__file__)))
PROGRAM = os.path.join(TOP, "crates", "gcaudit", "out", "gcaudit")


def alloc(id, kind, slots=0):
    return f'{{"op":"alloc","id":{id},"type":"{kind}","slots":{slots}}}\n'


def store(at, slot, to):
    return f'{{"op":"store","at":{at},"slot":{slot},"to":{to}}}\n'


def root(name, to):
    return f'{{"op":"root","name":"{name}","to":{to}}}\n'


def own(owner, ownee):
    return f'{{"op":"assert-ownedby","owner":{owner},"ownee":{ownee}}}\n'


COLLECT = '{"op":"collect"}\n'


def chain():
    """1,000,000 objects in a row, the last of them asserted dead."""
    n = 1_000_000
    for i in range(1, n + 1):
        yield alloc(i, "L", 1)
    for i in range(1, n):
        yield store(i, 0, i + 1)
    yield root("r", 1) + f'{{"op":"assert-dead","id":{n}}}\n' + COLLECT


def chain_report():
    steps = lambda first, last: "".join(f" [0] -> {i} L" for i in range(first, last + 1))
    yield "gc 1 live 1000000 traced 1000000 freed 0"
    yield "gc 1 dead 1000000 L: root r -> 1 L" + steps(2, 33) + " ... 999935 steps ..." + steps(999_969, 1_000_000)
    yield "end gcs 1 violations 1"


def hub():
    """An object with 2,097,150 slots that holds each of 1,048,575 leaves twice; every leaf is asserted unshared."""
    yield alloc(1, "Hub", 2_097_150)
    for i in range(2, 1_048_577):
        yield alloc(i, "Leaf") + store(1, 2 * i - 4, i) + store(1, 2 * i - 3, i)
    yield root("r", 1)
    for i in range(2, 1_048_577):
        yield f'{{"op":"assert-unshared","id":{i}}}\n'
    yield COLLECT


def hub_report():
    yield "gc 1 live 1048576 traced 1048576 freed 0"
    for i in range(2, 1_048_577):
        paths = f"root r -> 1 Hub [{2 * i - 4}] -> {i} Leaf | root r -> 1 Hub [{2 * i - 3}] -> {i} Leaf" if i <= 101 else "path left out"
        yield f"gc 1 unshared {i} Leaf refs 2: {paths}"
    yield "end gcs 1 violations 1048575"


def one_owner():
    """An owner that holds 100,000 ownees; roots name the first and the last of them, and the last is taken off its owner."""
    n = 100_000
    yield alloc(1, "Map", n)
    for i in range(n):
        yield alloc(i + 2, "Item") + store(1, i, i + 2) + own(1, i + 2)
    yield root("map", 1) + root("first", 2) + root("last", n + 1) + COLLECT + store(1, n - 1, "null") + COLLECT


def one_owner_report():
    yield "gc 1 live 100001 traced 100001 freed 0"
    yield "gc 2 live 100001 traced 100001 freed 0"
    yield "gc 2 ownedby 100001 Item owner 1: root last -> 100001 Item"
    yield "end gcs 2 violations 1"


def many_owners():
    """20,000 owners of 10 ownees in a shared array each; a second owner leads to the array first, so marks leave them in doubt."""
    n = 20_000
    id = 1
    for o in range(n):
        owner, other, array = id, id + 1, id + 2
        yield alloc(owner, "Pool", 1) + alloc(other, "Rival", 1) + alloc(array, "Array", 10) + alloc(id + 13, "Own")
        yield store(owner, 0, array) + store(other, 0, array) + own(other, id + 13)
        for k in range(10):
            yield alloc(id + 14 + k, "Job") + store(array, k, id + 14 + k) + own(owner, id + 14 + k)
        yield root(f"a{o}", owner) + root(f"j{o}", id + 14)
        id += 30
    yield COLLECT


def many_owners_report():
    # 14 objects for each owner; what only the other owner leads to is traced, and neither it nor its own ownee is reached
    yield "gc 1 live 280000 traced 240000 freed 40000"
    yield "end gcs 1 violations 0"


def main():
    need_programs(PROGRAM)
    wrong = 0
    with tempfile.TemporaryDirectory() as folder:
        for name, trace, report in (("chain", chain, chain_report), ("hub", hub, hub_report), ("one owner", one_owner, one_owner_report), ("many owners", many_owners, many_owners_report)):
            path = os.path.join(folder, "trace.jsonl")
            with open(path, "w") as file:
                file.writelines(trace())
            expected = "".join(line + "\n" for line in report()).encode()
            for workers in (1, 2, 16):
                start = time.perf_counter()
                with open(path, "rb") as source:
                    run = subprocess.run([PROGRAM, "--workers", str(workers)], stdin=source, capture_output=True)
                seconds = time.perf_counter() - start
                right = run.stdout == expected
                wrong += not right
                print(f"{name}, {workers} workers: {'right' if right else 'WRONG'} in {seconds:.1f} s, status {run.returncode}", flush=True)
                if not right:
                    for got, want in zip(run.stdout.decode().splitlines(), expected.decode().splitlines()):
                        if got != want:
                            print(f"  got  {got[:200]}\n  want {want[:200]}")
                            break
    sys.exit(1 if wrong else 0)


if __name__ == "__main__":
    main()

#!/usr/bin/env python3
"""Times gcsnap over snapshots of up to 2^28 bytes, against `wc -l` and the plain Rust reader in bench/plain_rust.

Usage: bench/snapshots.py [--small]     (--small: a hundredth of the sizes)
Each snapshot is read whole and refused for a last root that refers to no object, and then, without that root, made into a trace. The
programs take turns, three each, and the fastest time counts; both must write the same. gcsnap must be built. Nothing here is part of the gate.
"""
import hashlib
import os
import sys
import tempfile

from run import PLAIN_RUST, TOP, need_programs, plain_rust, timed

PROGRAM = os.path.join(TOP, "crates", "gcsnap", "out", "gcsnap")
PLAIN = os.path.join(PLAIN_RUST, "target", "release", "plain_snapshot")
MOST_BYTES, MOST_OBJECTS, MOST_SLOTS, MOST_TYPES, MOST_ROOTS = 268_435_456, 1_048_576, 16_777_216, 65_536, 65_536
TURNS = 3


def chain(scale):
    """Objects that hold one another in a row."""
    count = MOST_OBJECTS // scale
    for i in range(1, count):
        yield f"object {i} 1 Link\nslot 0 {i + 1}\n"
    yield f"object {count} 1 Link\n"


def apart(scale):
    """Objects whose ids are far apart, each with sixteen slots that refer to others."""
    count = MOST_OBJECTS // scale - 1
    for i in range(1, count + 1):
        yield f"object {4095 * i} 16 Node\n"
        for slot in range(15 if scale > 1 else 11):
            yield f"slot {slot} {4095 * (1 + (i * 7919 + slot * 104_729) % count)}\n"


def hub(scale):
    """As many slots as there may be in one object, all of which refer to it."""
    yield f"object 1 {MOST_SLOTS // scale} Hub\n"
    for slot in range(MOST_SLOTS // scale):
        yield f"slot {slot} 1\n"


def names(scale):
    """Types with names of 250 bytes, and as many roots as there may be."""
    count = 900_000 // scale
    for i in range(1, count + 1):
        yield f"object {i} 0 {i % (MOST_TYPES // scale):a>250}\n"
    for i in range(MOST_ROOTS // scale):
        yield f"root {i + 1} {i:0>250}\n"


def written(path, shape, scale, last):
    with open(path, "w") as file:
        file.write("heapsnap 1\n")
        file.writelines(shape(scale))
        file.write(f"{last}end\n")
    return os.path.getsize(path)


def least(runs):
    return min(runs, key=lambda run: run[0])


def main():
    need_programs(PROGRAM)
    scale = 100 if "--small" in sys.argv else 1
    plain = plain_rust() and PLAIN
    if not plain:
        print("bench/plain_rust can't be built here: its columns stay empty")
    print(f'{"snapshot":<8} {"MB":>6} {"":<9} {"gcsnap, s":>10} {"/ wc -l":>8} {"/ plain":>8} {"peak MB":>8} {"of plain":>9}')
    with tempfile.TemporaryDirectory() as folder:
        path = os.path.join(folder, "heap.snapshot")
        for shape in (chain, apart, hub, names):
            for done, last in (("is read", "root 4294967295 ~\n"), ("to-trace", "")):
                size = written(path, shape, scale, last)
                assert size <= MOST_BYTES, (shape.__name__, size)
                ours, counts, plains = [], [], []
                for _ in range(TURNS):
                    ours.append(summed(timed([PROGRAM, "to-trace"], path)))
                    counts.append(timed(["wc", "-l"], path))
                    if plain:
                        plains.append(summed(timed([plain], path)))
                run, count = least(ours), least(counts)
                said = f"{shape.__name__:<8} {size / 1e6:>6.1f} {done:<9} {run[0]:>10.2f} {run[0] / count[0]:>8.1f} "
                if plain:
                    other = least(plains)
                    said += f"{run[0] / other[0]:>8.2f} {run[1] / 1024:>8.1f} {other[1] / 1024:>9.1f}" + ("" if run[2:] == other[2:] else "  DIFFERENT")
                else:
                    said += f'{"":>8} {run[1] / 1024:>8.1f}'
                print(said, flush=True)


def summed(run):
    """The same with a sum of what was written in its place."""
    return *run[:3], hashlib.sha256(run.output).digest()


if __name__ == "__main__":
    main()

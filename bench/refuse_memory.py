#!/usr/bin/env python3
"""Runs the built program over a trace once for each of its allocations, which is refused, and says how each run ended.

Each trace is audited with each reaction, and a small generated one is audited too; and one of many lines with four workers, which read it side by side.

Usage: bench/refuse_memory.py [TRACE ..]     (the traces of examples/ if none is named)
Each allocation is refused once alone, and once together with all that follow. A run must end by itself, and either
print the whole report with its status, or a beginning of it with status 5. Needs a C compiler. Nothing here is part
of the gate.
"""
import collections
import glob
import os
import subprocess
import sys
import tempfile

from run import need_commands, need_programs

HERE = os.path.dirname(os.path.abspath(__file__))
PROGRAM = os.path.join(HERE, "..", "crates", "gcaudit", "out", "gcaudit")
NO_MEMORY = 5


def run(library, trace, words, **settings):
    environment = {"LD_PRELOAD": library, **settings}
    with open(trace, "rb") as source:
        child = subprocess.run([PROGRAM, *words], stdin=source, capture_output=True, env=environment, timeout=60)
    return child.returncode, child.stdout


def many_lines(folder):
    """A trace that is long enough to be read by several workers."""
    path = os.path.join(folder, "many_lines.jsonl")
    with open(path, "w") as trace:
        for number in range(1, 801):
            trace.write(f'{{"op":"alloc","id":{number},"type":"Request{number % 50}","slots":1,"thread":{number % 7}}}\n')
        trace.write('{"op":"root","name":"last","to":800}\n{"op":"assert-dead","id":800}\n{"op":"collect"}\n')
    return path


def main():
    need_programs(PROGRAM)
    need_commands("cc")
    traces = sys.argv[1:] or sorted(glob.glob(os.path.join(HERE, "..", "examples", "*.jsonl")))
    wrong = 0
    with tempfile.TemporaryDirectory() as folder:
        library = os.path.join(folder, "refuse_memory.so")
        counted = os.path.join(folder, "count")
        subprocess.run(["cc", "-O2", "-fno-builtin", "-shared", "-fPIC", "-o", library, os.path.join(HERE, "refuse_memory.c"), "-ldl"], check=True)
        runs = [(trace, ("--react", react)) for trace in traces for react in ("report", "halt", "force")]
        runs.append((os.devnull, ("--gen", "1", "--size", "6")))
        runs.append((many_lines(folder), ("--workers", "4")))
        for trace, words in runs:
            status, report = run(library, trace, words, COUNT_TO=counted)
            count = int(open(counted).read())
            ends = collections.Counter()
            for after in ("", "+"):
                for number in range(1, count + 1):
                    code, output = run(library, trace, words, REFUSE=f"{number}{after}")
                    if (code, output) == (status, report):
                        ends["whole report"] += 1
                    elif code == NO_MEMORY and report.startswith(output):
                        ends["status 5, a beginning of the report"] += 1
                    else:
                        wrong += 1
                        ends["WRONG"] += 1
                        print(f"{trace} {words}: allocation {number}{after}: status {code}, {output!r}")
            print(f"{os.path.basename(trace)} {' '.join(words)}: {count} allocations; " + ", ".join(f"{end}: {n}" for end, n in ends.items()), flush=True)
    sys.exit(1 if wrong else 0)


if __name__ == "__main__":
    main()

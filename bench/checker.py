#!/usr/bin/env python3
"""Times gccheck against gcaudit with one worker: the report of each trace is made, and then checked.

Usage: bench/checker.py [--small]     (--small: a tenth of the sizes)
They take turns, five each, and the fastest time counts. Both programs must be built. Nothing here is part of the gate.
"""
import os
import sys
import tempfile

from run import PROGRAM, TOP, chain, need_programs, service, timed
from heaps import hub, mesh, owned_service

CHECKER = os.path.join(TOP, "crates", "gccheck", "out", "gccheck")
TURNS = 5


def main():
    need_programs(PROGRAM, CHECKER)
    scale = 10 if "--small" in sys.argv else 1
    print(f'{"trace":<14} {"gcaudit, s":>10} {"gccheck, s":>10} {"ratio":>6} {"peak MB":>8} {"of gccheck":>10}')
    with tempfile.TemporaryDirectory() as folder:
        trace, report = os.path.join(folder, "trace.jsonl"), os.path.join(folder, "report.txt")
        for shape, size in ((chain, 200_000), (mesh, 300_000), (hub, 300_000), (service, 100_000), (owned_service, 100_000)):
            with open(trace, "w") as file:
                file.writelines(shape(size // scale))
            audits, checks = [], []
            for _ in range(TURNS):
                audits.append(timed([PROGRAM], trace))
                with open(report, "wb") as file:
                    file.write(audits[-1][3])
                checks.append(timed([CHECKER, trace, report], os.devnull))
            audit, check = (min(runs, key=lambda run: run[0]) for runs in (audits, checks))
            said = "" if check[3] == b"report equal\n" else f"  {check[3]}"
            print(f"{shape.__name__:<14} {audit[0]:>10.2f} {check[0]:>10.2f} {check[0] / audit[0]:>6.2f} {audit[1] / 1024:>8.1f} {check[1] / 1024:>10.1f}{said}", flush=True)


if __name__ == "__main__":
    main()

"""Runs of a program in which each request for memory is refused in turn, with all that follow it."""
import os
import shutil
import subprocess
from pathlib import Path

_SOURCE = Path(__file__).resolve().parent.parent / "bench" / "refuse_memory.c"


def wrong_requests(command, given, folder):
    """How many requests the command makes, and those from which on a refusal ends it otherwise than with status 5 and a beginning of what it
    writes, or with all of that; None where there is no C compiler.
    """
    refuser, count = os.path.join(folder, "refuse_memory.so"), os.path.join(folder, "count")
    if not shutil.which(os.environ.get("CC", "cc")):
        return None
    subprocess.run([os.environ.get("CC", "cc"), "-O2", "-fno-builtin", "-shared", "-fPIC", "-o", refuser, str(_SOURCE), "-ldl"], check=True)

    def run(**more):
        return subprocess.run(command, input=given, capture_output=True, env={"LD_PRELOAD": refuser, **more}, timeout=60)

    right = run(COUNT_TO=count)
    with open(count) as file:
        requests = int(file.read())
    wrong = []
    for first in range(1, requests + 1):
        ran = run(REFUSE=f"{first}+")
        if (ran.returncode, ran.stdout) != (right.returncode, right.stdout) and not (ran.returncode == 5 and right.stdout.startswith(ran.stdout)):
            wrong.append(first)
    return requests, wrong

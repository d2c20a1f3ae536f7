#!/usr/bin/env python3
"""Measures what the assertions inside programs on the JVM, on Node and in Ruby cost, in processes of so many objects.

Usage: bench/libraries.py [OBJECTS]     (1,000,000 where it isn't said)

It needs gcaudit in the variable GCAUDIT or on the PATH. Seconds are those of all processors, with the processes that read and audit
a dump. A runtime that isn't there is named. The tables in recorders/README.md are from here.
"""
import os
import shutil
import subprocess
import sys
import tempfile
from pathlib import Path

TOP = Path(__file__).resolve().parent.parent
HERE = TOP / "bench" / "libraries"
DEFAULT = 1_000_000


def measured(name, *command, **variables):
    """By what was measured, its seconds in each round."""
    found = {}
    said = subprocess.run(command, env={**os.environ, **variables}, stdout=subprocess.PIPE, text=True, check=True).stdout
    for line in said.splitlines():
        what, seconds = line.rsplit(" ", 1)
        found.setdefault(what, []).append(float(seconds))
    print(f"\n{name}\n")
    print("| What | Seconds |\n| --- | --- |")
    for what, seconds in found.items():
        least, most = min(seconds), max(seconds)
        print(f"| {what} | {least:.2f}{f' to {most:.2f}' if most > least else ''} |", flush=True)


def java(objects, folder):
    subprocess.run([TOP / "recorders" / "jvm" / "build", folder], check=True, stderr=subprocess.DEVNULL)
    jar = next(Path(folder).glob("*.jar"))
    subprocess.run(["javac", "-cp", jar, "-d", folder, HERE / "Costs.java"], check=True)
    program = ["-Dgcaudit.program=" + os.environ["GCAUDIT"]] if "GCAUDIT" in os.environ else []
    measured("The JVM", "java", "-Xmx1g", *program, "-cp", f"{jar}:{folder}", "Costs", objects)


def main(words):
    objects = words[0] if words else str(DEFAULT)
    with tempfile.TemporaryDirectory(prefix="gcaudit-bench-") as folder:
        if shutil.which("javac"):
            java(objects, folder)
        else:
            print("left out: there is no javac")
    if shutil.which("node"):
        measured("Node", "node", HERE / "costs.js", objects, GCAUDIT_PACKAGE=str(TOP / "recorders" / "node"))
    else:
        print("left out: there is no node")
    if shutil.which("ruby"):
        measured("Ruby", "ruby", "-I", TOP / "recorders" / "ruby" / "lib", HERE / "costs.rb", objects)
    else:
        print("left out: there is no ruby")


if __name__ == "__main__":
    main(sys.argv[1:])

#!/usr/bin/env python3
"""Measures gcaudit against plain Rust anew, and puts the tables and the pictures into bench/README.md and bench/TABLES.md.

Usage: bench/tables.py [--only PART ..] [--small] [--turns N] [--from FILE ..]     (an hour or more)
It runs the scripts of PARTS below. Each says before a table in which page and under which heading it stands; the first table under that heading
is replaced. What the text says of the tables must be read again by a person.
--only PART ..   only these parts
--small          a tenth of the sizes, for a quick look
--turns N        so many turns instead of those of each part
--from FILE ..   puts the tables of these files into the pages, and measures nothing
gcaudit must be built (for the part jvm it need not be), and cargo must be able to build bench/plain_rust. Nothing here is part of the gate.
"""
import argparse
import os
import re
import subprocess
import sys

BENCH = os.path.dirname(os.path.abspath(__file__))
# The words of each run, where a name that ends with .svg is that of a picture in this folder, and the number of turns.
PARTS = {
    "plain": (["run.py", "--plot", "plain_rust.svg", "--plot-growth", "growth.svg", "--plot-memory", "memory.svg"], 6),
    "reading": (["run.py", "--reading", "--full", "--plot", "reading.svg"], 5),
    "heaps": (["heaps.py", "--plot", "heaps.svg"], 5),
    "growth": (["heaps.py", "--growth"], 2),
    "jvm": (["run.py", "--shape", "jvm", "--objects", "1000000", "4000000", "--classes", "200", "2000", "20000"], 3),
}
TABLE = re.compile(r"(?m)^<!-- (\S+): (.+) -->\n((?:\|.*\n)+)")
FIRST_TABLE = re.compile(r"(?m)^(?:\|.*\n)+")


def command_of(part, options):
    """The command line of a part."""
    (script, *words), turns = PARTS[part]
    words = [os.path.join(BENCH, word) if word.endswith(".svg") else word for word in words]
    small = (["--scale", "0.1"] if script == "heaps.py" else ["--small"]) if options.small else []
    return [sys.executable, "-B", os.path.join(BENCH, script), *words, "--turns", str(options.turns or turns), *small]


def put(page, heading, table):
    """Replaces the first table under a heading of a page."""
    path = os.path.join(BENCH, page)
    with open(path, encoding="utf-8") as file:
        text = file.read()
    before, mark, after = text.partition(f"\n## {heading}\n")
    section = re.split(r"(?m)^## ", after)[0]
    if not mark or not FIRST_TABLE.search(section):
        sys.exit(f"{page} has no table under the heading {heading}")
    with open(path, "w", encoding="utf-8") as file:
        file.write(before + mark + FIRST_TABLE.sub(lambda _: table, after, count=1))
    print(f"{page}: the table under {heading}", flush=True)


def put_all(said):
    for page, heading, table in TABLE.findall(said):
        put(page, heading, table)


def read_words():
    if "--help" in sys.argv[1:]:
        print(__doc__)
        sys.exit()
    parser = argparse.ArgumentParser(usage="bench/tables.py [options], as bench/tables.py --help says", add_help=False)
    parser.add_argument("--only", nargs="+", choices=list(PARTS), default=list(PARTS))
    parser.add_argument("--small", action="store_true")
    parser.add_argument("--turns", type=int)
    parser.add_argument("--from", dest="files", nargs="+")
    return parser.parse_args()


def main():
    options = read_words()
    for path in options.files or []:
        with open(path, encoding="utf-8") as file:
            put_all(file.read())
    for part in [] if options.files else options.only:
        ran = subprocess.run(command_of(part, options), stdout=subprocess.PIPE, text=True)
        sys.stdout.write(ran.stdout)
        if ran.returncode != 0:
            sys.exit(f"{part}: status {ran.returncode}")
        put_all(ran.stdout)


if __name__ == "__main__":
    main()

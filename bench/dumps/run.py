#!/usr/bin/env python3
"""What the commands for heap dumps cost: bench/dumps/run.py [--keep FOLDER] [NAME ..]

It makes dumps on the spot, by Shop.java and shop.js beside it: an HPROF dump of some 266 MB, a second one of the same program with a little
more, and a snapshot of V8 of some 150 MB. Then it runs each command on them, with numpy where the Python that runs this has it and without,
and prints a table: seconds of the processor, of the user and of the system, and the most memory. With names, only rows that begin so are measured.

It needs java, javac, jcmd and node. Nothing here is part of the gate.
"""
import argparse
import importlib.util
import os
import subprocess
import sys
import tempfile
from pathlib import Path

HERE = Path(__file__).resolve().parent
RECORDERS = HERE.parent.parent / "recorders"
CUSTOMERS, MORE_CUSTOMERS = 29_000, 29_300
NODE_CUSTOMERS = 36_500


def dump_java(folder, customers):
    """A dump of a shop with so many customers."""
    dump = folder / f"{customers}.hprof"
    if not dump.exists():
        subprocess.run(["javac", "-d", folder, HERE / "Shop.java"], check=True)
        command = ["java", "-Xmx2g", "-XX:+UseSerialGC", "-cp", folder, "Shop", str(customers)]
        with subprocess.Popen(command, stdin=subprocess.PIPE, stdout=subprocess.PIPE) as shop:
            shop.stdout.readline()
            subprocess.run(["jcmd", str(shop.pid), "GC.heap_dump", dump], check=True, stdout=subprocess.DEVNULL)
            shop.stdin.close()
    return dump


def dump_node(folder):
    dump = folder / f"{NODE_CUSTOMERS}.heapsnapshot"
    if not dump.exists():
        subprocess.run(["node", "--max-old-space-size=4000", HERE / "shop.js", dump, str(NODE_CUSTOMERS)], check=True)
    return dump


def measured(words, with_numpy):
    """The seconds and the megabytes of a command."""
    environment = dict(os.environ, PYTHONPATH=str(RECORDERS))
    environment.pop("GCAUDIT_WITHOUT_NUMPY", None)
    if not with_numpy:
        environment["GCAUDIT_WITHOUT_NUMPY"] = "1"
    command = [sys.executable, "-B", "-m", *map(str, words)]
    child = subprocess.Popen(command, env=environment, stdout=subprocess.DEVNULL, stderr=subprocess.PIPE)
    said = child.stderr.read().decode()
    _, status, used = os.wait4(child.pid, 0)
    child.returncode = os.waitstatus_to_exitcode(status)
    if child.returncode not in (0, 1):
        sys.exit(f"{' '.join(map(str, words))}: {said}")
    return used.ru_utime + used.ru_stime, used.ru_maxrss / 1024


def rows(folder):
    """What is measured: a name, the dump, and the words of the command."""
    dump, later, snapshot = dump_java(folder, CUSTOMERS), dump_java(folder, MORE_CUSTOMERS), dump_node(folder)
    trace, commands = folder / "trace.jsonl", "gcaudit_trace.commands."
    hprof, heapsnapshot = ["hprof_to_trace", dump, trace], ["heapsnapshot_to_trace", snapshot, trace]
    return [
        ("gcaudit-summary", dump, [commands + "summary", dump]),
        ("gcaudit-growth of two", dump, [commands + "growth", dump, later]),
        ("hprof_to_trace --only", dump, [*hprof, "--only", "Shop$Customer", "--dead", "Shop$Customer"]),
        ("hprof_to_trace --without", dump, [*hprof, *without("java.", "Shop$Item"), "--dead", "Shop$Order"]),
        ("gcaudit-summary", snapshot, [commands + "summary", snapshot]),
        ("gcaudit-growth of two", snapshot, [commands + "growth", snapshot, snapshot]),
        ("heapsnapshot_to_trace --only", snapshot, [*heapsnapshot, "--only", "Customer", "--dead", "Customer"]),
        ("heapsnapshot_to_trace", snapshot, heapsnapshot),
        ("gcaudit-summary", trace, [commands + "summary", trace]),
    ]


def without(*prefixes):
    return [word for prefix in prefixes for word in ("--without", prefix)]


def main():
    parser = argparse.ArgumentParser(description=__doc__.splitlines()[0])
    parser.add_argument("--keep", metavar="FOLDER", help="where the dumps are made, and stay for the next time")
    parser.add_argument("names", metavar="NAME", nargs="*", help="only rows that begin so")
    asked = parser.parse_args()
    with tempfile.TemporaryDirectory() as temporary:
        folder = Path(asked.keep or temporary)
        folder.mkdir(exist_ok=True)
        ways = [True, False] if importlib.util.find_spec("numpy") else [False]
        print("| Command | Input | Numpy | Seconds | Most memory |\n| --- | --- | --- | ---: | ---: |")
        for name, of, words in rows(folder):
            if asked.names and not name.startswith(tuple(asked.names)):
                continue
            for with_numpy in ways:
                seconds, memory = measured(words, with_numpy)
                size = of.stat().st_size / 1e6
                shown = f"{of.suffix[1:]}, {size:.0f} MB"
                print(f"| `{name}` | {shown} | {'yes' if with_numpy else 'no'} | {seconds:.0f} | {memory:.0f} MB |", flush=True)


if __name__ == "__main__":
    main()

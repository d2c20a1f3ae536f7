"""102 objects that are asserted dead, each with a root of its own.

Worked out by hand from docs/DEFINITIONS.md.
"""


def trace():
    yield from (f"alloc {i} A 0; root r{i} {i}; dead {i}" for i in range(1, 103))
    yield "collect"


def report():
    yield "gc 1 live 102 traced 102 freed 0"
    yield from (f"gc 1 dead {i} A: root r{i} -> {i} A" for i in range(1, 101))
    yield "gc 1 dead 101 A: path left out"
    yield "gc 1 dead 102 A: path left out"
    yield "end gcs 1 violations 102"

"""A chain of 66 objects, of which the last two are asserted dead: a path of 64 steps is shown whole, and of 65 one is left out.

Worked out by hand from docs/DEFINITIONS.md.
"""


def steps(first, last):
    return "".join(f" [0] -> {i} L" for i in range(first, last + 1))


def trace():
    yield from (f"alloc {i} L 1" for i in range(1, 67))
    yield from (f"store {i} 0 {i + 1}" for i in range(1, 66))
    yield "root r 1; dead 65; dead 66; collect"


def report():
    yield "gc 1 live 66 traced 66 freed 0"
    yield f"gc 1 dead 65 L: root r -> 1 L{steps(2, 65)}"
    yield f"gc 1 dead 66 L: root r -> 1 L{steps(2, 33)} ... 1 steps ...{steps(35, 66)}"
    yield "end gcs 1 violations 2"

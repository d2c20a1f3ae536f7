"""With 65,536 roots one that names nothing is taken, one that is there may name another object, and one that is taken away makes room.

Worked out by hand from docs/DEFINITIONS.md.
"""


def trace():
    yield "alloc 1 A 0; alloc 2 A 0"
    yield from (f"root r{number} 1" for number in range(65_536))
    yield "root more -; root r0 2; root r1 -; root more 2; collect"
    yield "root last 1"

"""65,537 roots of one object, of which the last is the only one of another. Worked out by hand from docs/DEFINITIONS.md."""


def trace():
    yield "alloc 1 A 0; alloc 2 A 0"
    yield from (f"root r{number} 1" for number in range(65_536))
    yield "root last 2; dead 2; collect"

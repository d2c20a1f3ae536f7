"""The roots that name what is dead go, and the others stay in their order. Worked out by hand from docs/DEFINITIONS.md."""


def trace():
    yield "alloc 1 A 0; alloc 2 A 0; unshared 2"
    yield from (f"root n{number:04} {1 + number % 2}" for number in range(2_000))
    yield "dead 1; collect; collect"

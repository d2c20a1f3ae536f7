"""There may be 65,536 root names at one time."""


def trace():
    yield "alloc 1 A 0"
    yield from (f"root r{number} 1" for number in range(65_537))

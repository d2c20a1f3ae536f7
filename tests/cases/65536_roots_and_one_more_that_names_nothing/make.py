"""A root that names nothing is taken whatever there is."""


def trace():
    yield "alloc 1 A 0"
    yield from (f"root r{number} 1" for number in range(65_536))
    yield "root more -"

"""A thread may have 64 open regions, whatever other threads have. Worked out by hand from docs/DEFINITIONS.md."""


def trace():
    yield from ("start 3" for _ in range(64))
    yield from ("start 2" for _ in range(64))
    yield "alldead 3; start 3; start 3"

"""A thread may have 64 open regions."""


def trace():
    yield from ("start 3" for _ in range(65))

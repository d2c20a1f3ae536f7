"""A tree of 300,000 objects, the odd ones of one type and the even ones of another, with one object too many of each."""

N = 300_000


def kind(i):
    return "Red" if i % 2 else "Black"


def path(i):
    """The way to an object: an even one hangs in slot 0 of that with half its number, an odd one in slot 1."""
    return f"root top -> 1 {kind(1)}" if i == 1 else f"{path(i // 2)} [{i % 2}] -> {i} {kind(i)}"


def trace():
    yield f"alloc 1 {kind(1)} 2; root top 1"
    for i in range(2, N + 1):
        yield f"alloc {i} {kind(i)} 2; store {i // 2} {i % 2} {i}"
    yield f"limit Black {N // 2 - 1}; limit Red {N // 2 - 1}; collect"


def report():
    yield f"gc 1 live {N} traced {N} freed 0"
    yield f"gc 1 instances Black limit {N // 2 - 1} found {N // 2}: {path(N)}"
    yield f"gc 1 instances Red limit {N // 2 - 1} found {N // 2}: {path(N - 1)}"
    yield "end gcs 1 violations 2"

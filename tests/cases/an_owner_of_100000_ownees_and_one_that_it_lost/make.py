"""An owner that holds 100,000 of its ownees, and one more that a root names."""

HELD = 100_000
LOST = HELD + 2


def trace():
    yield f"alloc 1 OrderBook {HELD}; root book 1"
    for i in range(2, LOST + 1):
        yield f"alloc {i} Order 0; own 1 {i}"
    yield from (f"store 1 {i - 2} {i}" for i in range(2, LOST))
    yield f"root lost {LOST}; collect"


def report():
    yield f"gc 1 live {LOST} traced {LOST} freed 0"
    yield f"gc 1 ownedby {LOST} Order owner 1: root lost -> {LOST} Order"
    yield "end gcs 1 violations 1"

"""Roots stand by their names, in whatever order they come and are taken away. Worked out by hand from docs/DEFINITIONS.md."""

# 1,237 has no divisor in common with 2,000, so each number comes once.
NUMBERS = [place * 1_237 % 2_000 for place in range(2_000)]


def trace():
    yield "alloc 1 A 0; alloc 2 A 0; unshared 1; unshared 2"
    yield from (f"root n{number:04} {1 + number % 2}" for number in NUMBERS)
    yield "collect"
    for rest in 0, 1:
        yield from (f"root n{number:04} -" for number in NUMBERS if number % 2 == rest)
        yield "collect"

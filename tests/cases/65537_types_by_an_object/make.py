"""65,536 type names may be seen, by limits and by objects. A limit on one of them may change. Worked out by hand from docs/DEFINITIONS.md."""


def trace():
    yield from (f"limit T{number} 1" for number in range(65_536))
    yield "limit T0 2; alloc 1 T65535 0; alloc 2 more 0"

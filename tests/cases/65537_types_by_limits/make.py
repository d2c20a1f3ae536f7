"""65,536 type names may be seen."""


def trace():
    yield from (f"limit T{number} 1" for number in range(65_536))
    yield "limit more 1"

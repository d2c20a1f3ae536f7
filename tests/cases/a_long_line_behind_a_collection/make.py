"""The second line is one byte too long; what came before it is reported. Worked out by hand from docs/DEFINITIONS.md."""


def trace():
    return b'{"op":"collect"}\n' * 2 + b" " * 65_537 + b'\n{"op":"collect"}\n'

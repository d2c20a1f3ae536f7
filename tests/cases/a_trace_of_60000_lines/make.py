"""Blank lines and fields of all lengths between the operations. Worked out by hand from docs/DEFINITIONS.md."""

LINES = 60_000


def trace():
    lines = []
    for number in range(1, LINES + 1):
        if number % 3 == 0:
            lines.append(b"")
        else:
            lines.append(b'{"op":"root","name":"r","to":null,"note":"%s"}' % (b"x" * (number % 97)))
    return b"\n".join(lines + [b'{"op":"sweep"}', b""])

"""Object 1 holds the last of 1,048,577 objects, which is asserted dead. The others are garbage. Worked out by hand from docs/DEFINITIONS.md."""

N = 1_048_577


def trace():
    line = b'{"op":"alloc","id":%d,"type":"A"}\n'
    first = b'{"op":"alloc","id":1,"type":"A","slots":1}\n'
    last = b'{"op":"root","name":"r","to":1}\n{"op":"store","at":1,"slot":0,"to":%d}\n{"op":"assert-dead","id":%d}\n{"op":"collect"}\n' % (N, N)
    return first + b"".join(line % number for number in range(2, N + 1)) + last


def report():
    yield f"gc 1 live {N} traced 2 freed {N - 2}"
    yield f"gc 1 dead {N} A: root r -> 1 A [0] -> {N} A"
    yield "end gcs 1 violations 1"

"""There may be 1,048,576 live objects."""


def trace():
    line = b'{"op":"alloc","id":%d,"type":"A"}\n'
    return b"".join(line % number for number in range(1, 1_048_578))

"""There may be 1,048,576 root names at one time. The trace is read with two workers only, since it is long."""


def trace():
    line = b'{"op":"root","name":"r%d","to":1}\n'
    return b'{"op":"alloc","id":1,"type":"A"}\n' + b"".join(line % number for number in range(1_048_577))

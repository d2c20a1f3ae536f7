"""Lines that were read before their turn count for nothing behind a refused line."""


def trace():
    alloc = b'{"op":"alloc","id":%d,"type":"A","slots":1}\n'
    return alloc % 1 + b'{"op":"alloc","id":1,"type":"A"}\n' + b"".join(alloc % number for number in range(2, 20_001)) + b'{"op":"collect"}\n'

"""The end of a trace is a line too, and comes behind all that were read before their turn."""


def trace():
    alloc = b'{"op":"alloc","id":%d,"type":"A","slots":1}\n'
    return b"".join(alloc % number for number in range(1, 20_001)) + b'{"op":"alloc","id":20001,"type":"A","slots":-1}'

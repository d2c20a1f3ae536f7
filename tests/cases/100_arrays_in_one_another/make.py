"""A field that the operation has no use for: 100 arrays in one another."""


def trace():
    return b'{"op":"collect","x":' + b"[" * 100 + b"]" * 100 + b"}"

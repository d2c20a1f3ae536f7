"""A field that the operation has no use for: 200 arrays in one another."""


def trace():
    return b'{"op":"collect","x":' + b"[" * 200 + b"]" * 200 + b"}"

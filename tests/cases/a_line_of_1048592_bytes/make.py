"""An operation of 16 bytes, and so many spaces behind it that its line has 1,048,592 bytes without its newline."""


def trace():
    return b'{"op":"collect"}' + b" " * 1_048_576 + b"\n"

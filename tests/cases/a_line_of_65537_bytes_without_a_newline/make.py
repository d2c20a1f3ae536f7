"""An operation of 16 bytes, and so many spaces behind it that its line has 65,537 bytes without its newline."""


def trace():
    return b'{"op":"collect"}' + b" " * 65_521

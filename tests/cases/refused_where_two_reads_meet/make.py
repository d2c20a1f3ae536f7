"""Lines of 63 bytes and one of 62, so that no read of a power of two bytes ends where a line does; the refused line stands across 655,424 bytes,
which is where the first read ends that several workers share."""


def line(text, length):
    return text.ljust(length - 1) + b"\n"


def trace():
    alloc = b'{"op":"alloc","id":%d,"type":"A"}'
    # 10,403 lines are 655,389 bytes, and the refused line goes on to 655,451
    first = b"".join(line(alloc % number, 63) for number in range(1, 10_404))
    return first + line(b'{"op":"store","at":10403,"slot":0,"to":null}', 62) + b'{"op":"collect"}\n'

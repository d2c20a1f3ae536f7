"""Lines that are equal to one another, which are told apart by their places alone."""


def trace():
    return b'{"op":"collect"}\n{"op":"alloc","id":1,"type":"A"}\n' + b'{"op":"collect"}\n' * 20_000


def report():
    yield "gc 1 live 0 traced 0 freed 0"
    yield "gc 2 live 1 traced 0 freed 1"
    for number in range(3, 20_002):
        yield f"gc {number} live 0 traced 0 freed 0"
    yield "end gcs 20001 violations 0"

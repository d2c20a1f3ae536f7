"""A chain of 1,000,000 objects, the last of which is asserted dead."""

N = 1_000_000


def steps(first, last):
    return "".join(f" [0] -> {i} L" for i in range(first, last + 1))


def trace():
    lines = [f'{{"op":"alloc","id":{i},"type":"L","slots":1}}\n' for i in range(1, N + 1)]
    lines += [f'{{"op":"store","at":{i},"slot":0,"to":{i + 1}}}\n' for i in range(1, N)]
    lines.append(f'{{"op":"root","name":"r","to":1}}\n{{"op":"assert-dead","id":{N}}}\n{{"op":"collect"}}\n')
    return "".join(lines).encode()


def report():
    yield f"gc 1 live {N} traced {N} freed 0"
    yield f"gc 1 dead {N} L: root r -> 1 L{steps(2, 33)} ... {N - 1 - 64} steps ...{steps(N - 31, N)}"
    yield "end gcs 1 violations 1"

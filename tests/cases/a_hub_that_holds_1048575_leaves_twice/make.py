"""An object that holds each of 1,048,575 others in two slots, as many objects as there may be, and each of the others is asserted unshared."""

LEAVES = 1_048_575


def trace():
    lines = [f'{{"op":"alloc","id":1,"type":"Hub","slots":{2 * LEAVES}}}\n{{"op":"root","name":"r","to":1}}\n']
    for i in range(2, LEAVES + 2):
        lines.append(f'{{"op":"alloc","id":{i},"type":"Leaf","slots":0}}\n{{"op":"assert-unshared","id":{i}}}\n')
        lines += [f'{{"op":"store","at":1,"slot":{slot},"to":{i}}}\n' for slot in (2 * i - 4, 2 * i - 3)]
    lines.append('{"op":"collect"}\n')
    return "".join(lines).encode()


def report():
    yield f"gc 1 live {LEAVES + 1} traced {LEAVES + 1} freed 0"
    for i in range(2, LEAVES + 2):
        paths = f"root r -> 1 Hub [{2 * i - 4}] -> {i} Leaf | root r -> 1 Hub [{2 * i - 3}] -> {i} Leaf"
        yield f"gc 1 unshared {i} Leaf refs 2: {paths if i <= 101 else 'path left out'}"
    yield f"end gcs 1 violations {LEAVES}"

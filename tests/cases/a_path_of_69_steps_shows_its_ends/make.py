"""A chain of 70 objects: of the 69 steps to the last one 5 are left out."""


def trace():
    yield from (f"alloc {i} Link 1" for i in range(1, 71))
    yield from (f"store {i} 0 {i + 1}" for i in range(1, 70))
    yield "root r 1; dead 70; collect"


def report():
    yield "gc 1 live 70 traced 70 freed 0"
    first = "".join(f" [0] -> {i} Link" for i in range(2, 34))
    last = "".join(f" [0] -> {i} Link" for i in range(39, 71))
    yield f"gc 1 dead 70 Link: root r -> 1 Link{first} ... 5 steps ...{last}"
    yield "end gcs 1 violations 1"

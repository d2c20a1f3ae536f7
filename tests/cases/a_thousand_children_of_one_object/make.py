"""An object that holds 1,000 others, beside one more that a root names."""


def trace():
    yield "alloc 1 A 1000; alloc 2 A 0; root a 1; root b 2"
    for child in range(3, 1_003):
        yield f"alloc {child} A 0; store 1 {child - 3} {child}"
    yield "collect"

def case():
    n = 1_048_576
    return (
        "heapsnap 1\n" + "".join(f"object {i} 0 A\n" for i in range(1, n + 1)) + "end\n"
    ).encode(), "".join(f'{{"id":{i},"op":"alloc","slots":0,"type":"A"}}\n' for i in range(1, n + 1)).encode()

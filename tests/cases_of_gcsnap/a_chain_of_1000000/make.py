def case():
    n = 1_000_000
    lines = "".join(f"object {i} 1 L\nslot 0 {i + 1}\n" for i in range(1, n)) + f"object {n} 1 L\n"
    allocs = "".join(f'{{"id":{i},"op":"alloc","slots":1,"type":"L"}}\n' for i in range(1, n + 1))
    stores = "".join(f'{{"at":{i},"op":"store","slot":0,"to":{i + 1}}}\n' for i in range(1, n))
    return f"heapsnap 1\n{lines}root 1 r\nend\n".encode(), f'{allocs}{stores}{{"name":"r","op":"root","to":1}}\n'.encode()

def case():
    n = 65_536
    more = f"object {n + 1} 0 T1\n"
    return ("heapsnap 1\n" + "".join(f"object {i} 0 T{i}\n" for i in range(1, n + 1)) + more + "end\n").encode(), "".join(
        f'{{"id":{i},"op":"alloc","slots":0,"type":"T{i if i <= n else 1}"}}\n' for i in range(1, n + 2)
    ).encode()

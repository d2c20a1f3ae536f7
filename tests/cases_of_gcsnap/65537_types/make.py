def case():
    n = 65_537
    return ("heapsnap 1\n" + "".join(f"object {i} 0 T{i}\n" for i in range(1, n + 1)) + "end\n").encode(), b"fault line 65538: BadLine\n"

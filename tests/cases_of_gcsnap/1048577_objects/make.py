def case():
    n = 1_048_577
    return ("heapsnap 1\n" + "".join(f"object {i} 0 A\n" for i in range(1, n + 1)) + "end\n").encode(), b"fault line 1048578: BadLine\n"

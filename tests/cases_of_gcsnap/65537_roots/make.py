def case():
    n = 65_537
    return ("heapsnap 1\nobject 1 0 A\n" + "".join(f"root 1 r{i:06}\n" for i in range(n)) + "end\n").encode(), b"fault line 65539: BadLine\n"

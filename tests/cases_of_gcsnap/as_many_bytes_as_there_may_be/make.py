def case():
    front = b"heapsnap 1\nend\n"
    return front + b"a" * (268_435_456 - len(front)), b"fault line 3: Unended\n"

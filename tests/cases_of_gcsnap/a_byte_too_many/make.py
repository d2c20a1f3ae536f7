def case():
    front = b"heapsnap 1\nbad\n"
    return front + b"a" * (268_435_457 - len(front)), b"fault line 3: TooLong\n"

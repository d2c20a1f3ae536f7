def case():
    return b"heapsnap 1\nobject 1 16777215 A\nobject 2 1 A\nend\n", (
        b'{"id":1,"op":"alloc","slots":16777215,"type":"A"}\n{"id":2,"op":"alloc","slots":1,"type":"A"}\n'
    )

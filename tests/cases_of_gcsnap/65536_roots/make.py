def case():
    n = 65_536
    return ("heapsnap 1\nobject 1 0 A\n" + "".join(f"root 1 r{i:06}\n" for i in range(n)) + "end\n").encode(), (
        '{"id":1,"op":"alloc","slots":0,"type":"A"}\n' + "".join(f'{{"name":"r{i:06}","op":"root","to":1}}\n' for i in range(n))
    ).encode()

def case():
    n = 2_097_150
    text = "heapsnap 1\nobject 1 %d H\n" % n + "".join(f"slot {i} 1\n" for i in range(n)) + "end\n"
    trace = '{"id":1,"op":"alloc","slots":%d,"type":"H"}\n' % n + "".join(f'{{"at":1,"op":"store","slot":{i},"to":1}}\n' for i in range(n))
    return text.encode(), trace.encode()

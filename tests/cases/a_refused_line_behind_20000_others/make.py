"""Many lines that stand behind one another are read at once; the line that is refused is one of them, and others follow."""


def trace():
    alloc = b'{"op":"alloc","id":%d,"type":"A","slots":1}\n'
    yes = b"".join(alloc % number for number in range(1, 10_001))
    more = b"".join(alloc % number for number in range(10_001, 20_001))
    collect = b'{"op":"collect"}\n'
    return yes + collect + more + b'{"op":"assert-dead","id":30000}\n' + b'{"op":"assert-dead","id":20000}\n' + collect * 2

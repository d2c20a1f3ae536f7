def trace():
    return b'{"op":"collect"}\n' + b" " * 65537 + b"\n"


def report():
    return ["minor 1 live 0 freed 0 remembered 0", "fault line 2: LineTooLong"]

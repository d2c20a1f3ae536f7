N = 1_000_000


def trace():
    lines = [f'{{"op":"alloc","id":{i},"type":"A","slots":1}}\n{{"op":"store","at":{i},"slot":0,"to":{i - 1 or 1}}}\n' for i in range(1, N + 1)]
    lines.append(f'{{"op":"root","name":"r","to":{N}}}\n{{"op":"collect"}}\n')
    lines += [f'{{"op":"alloc","id":{i},"type":"B"}}\n' for i in range(N + 1, N + 11)]
    lines.append(f'{{"op":"store","at":{N // 2},"slot":0,"to":{N + 7}}}\n{{"op":"collect"}}\n' + 2 * '{"op":"collect"}\n')
    return "".join(lines).encode()


def report():
    return [
        f"minor 1 live {N} freed 0 remembered 0",
        f"minor 2 live {N + 10} freed 9 remembered 1",
        f"minor 3 live {N + 1} freed 0 remembered 0",
        f"full 4 live {N + 1} freed {N // 2 - 1}",
        "end gcs 4",
    ]

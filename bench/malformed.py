#!/usr/bin/env python3
"""Compares what gcaudit says of malformed traces with an independent reading of them.

Usage: bench/malformed.py [--count N] [--first SEED] [--workers N ..] [--processes N] [--program FILE [--first-argument ARGUMENT]]
       bench/malformed.py --show SEED

Each trace is made from its seed alone and has some ten lines, and mostly one or several of them are odd or malformed: bytes are changed, put in,
taken out or swapped; lines are cut off or run together; escapes, surrogates, UTF-8, numbers, nesting, keys, blanks and lengths are right or wrong.
One trace in a hundred has up to 30,000 right lines in between. `plain_lines` of bench/plain_rust reads the lines with serde_json's `Value`, and the heap
of bench/random_traces.py takes the operations. The whole report and the status must be the same.
--count N         the number of traces (20,000)
--first SEED      from this seed on (1)
--workers N ..    each trace with each of these numbers of workers (1)
--processes N     how many run at a time (one for each processor)
--program FILE    this program instead of the one that ./build built; --first-argument comes before its other arguments. `plain_rust` is the program of
                  bench/plain_rust, which must say the same
--show SEED       writes the trace of this seed and compares nothing
gcaudit must be built, and cargo must be able to build bench/plain_rust. Nothing here is part of the gate.
"""
import argparse
import collections
import json
import multiprocessing
import os
import random
import subprocess
import sys
from typing import NamedTuple

from random_traces import PATHS, Heap, Refused
from run import PROGRAM, need_plain_rust, need_programs

MOST_SLOTS = 16_777_216
LONGEST_LINE = 65_536
# Traces of one run of the plain reading.
BATCH = 500
# The heap here keeps each slot as a list, so traces of longer objects are left out, and counted.
MOST_SLOTS_HERE = 100_000

FIELDS = ("op", "id", "type", "slots", "thread", "at", "slot", "to", "name", "limit", "owner", "ownee", "weak")
OPERATIONS = (
    *("alloc", "store", "set-weak", "root", "collect", "assert-dead", "start-region"),
    *("assert-alldead", "assert-instances", "assert-unshared", "assert-ownedby"),
)

# ---- texts, in which a byte that is no UTF-8 is a lone surrogate, as Python's `surrogateescape` has it


def as_bytes(text):
    return text.encode("utf-8", "surrogateescape")


GOOD_PIECES = (
    *("a", "b7", " ", "ü", "€", "𝄞", "\u2028", "\u0085", "/"),
    *(r"\/", r"\"", r"\\", r"\u0061", r"\u00fc", r"\u20AC", r"\ud834\udd1e", r"\uD834\uDD1E", r"\uffff"),
)
# JSON, but no name, and then no JSON.
CONTROL_PIECES = (r"\n", r"\t", r"\b", r"\f", r"\r", r"\u0000", r"\u001f", r"\u007f", "\x7f")
BAD_PIECES = (
    *(r"\x", r"\u12", r"\u12g4", r"\u", r"\U0061", r"\u+061", r"\u 061", r"\a", "\\", r"\'", '"'),
    *(r"\ud800", r"\udfff", r"\ud800\ud800", r"\udd1e\ud834", r"\ud834x", r"\ud834\n", r"\ud834\u0061", r"\ud834\udd1", r"\ud834\\udd1e"),
    *("\x00", "\x01", "\t", "\r", "\x1f"),
)
# A lone byte, a character cut off, overlong forms, a surrogate, one above the greatest, and a byte order mark, which is right within a text.
BAD_BYTES = (
    *("\udc80", "\udcff", "\udcc3", "\udce2\udc82", "\udcf0\udc9d\udc84", "\udcc0\udc80", "\udce0\udc80\udcaf"),
    *("\udced\udca0\udc80", "\udcf4\udc90\udc80\udc80", "\udcf8", "\ufeff"),
)


def random_text(rng, bad_often=0.3):
    pieces = [rng.choice(GOOD_PIECES) for _ in range(rng.choice((0, 1, 1, 2, 3, 5)))]
    if rng.random() < bad_often:
        pieces.insert(rng.randint(0, len(pieces)), rng.choice(rng.choice((CONTROL_PIECES, BAD_PIECES, BAD_PIECES, BAD_BYTES))))
    return f'"{"".join(pieces)}"'


def long_text(rng):
    """A text round about the length of the longest name."""
    piece = rng.choice(("n", "ü", "€", "𝄞", r"\u0061", r"\u00fc", r"\ud834\udd1e"))
    width = len(json.loads(f'"{piece}"').encode())
    return f'"{piece * (256 // width)}{"x" * rng.choice((0, 0, 1, 256 % width, 256 % width + 1))}"'


# ---- numbers

ODD_NUMBERS = (
    # No JSON.
    *("00", "01", "-01", "+1", "--1", "-", ".5", "1.", "1.e2", "1e", "1e+", "1E-", "0x1", "1_0", "1,0", "NaN", "Infinity", "-Infinity"),
    # No whole numbers, or none as they are written.
    *("-0", "-1", "1.0", "1e0", "1e2", "1E+2", "0.0", "5e-1"),
    # At the edges of what fields and 64 bits may have.
    *("1023", "1024", "65536", "4294967295", "4294967296", "4294967297", "9007199254740993", "16777216", "16777217"),
    *("18446744073709551615", "18446744073709551616", "184467440737095516150", "-9223372036854775808", "-9223372036854775809"),
    # Just not too large for a float, and just too large.
    *("1.7976931348623157e308", "1.7976931348623158e308", "1.797693134862315807e308", "17976931348623158" + "0" * 292),
    *("1.7976931348623159e308", "17976931348623159" + "0" * 292),
    # Far above or below, or only by how they are written.
    *("1e308", "1e309", "1e400", "-1e400", "1e-400", "0e400", "-0.0e400", "0.0e99999999999", "1e99999999999", "1e-99999999999"),
    *("9" * 400, "1" + "0" * 308, "1" + "0" * 309, "1" + "0" * 400 + "e-400"),
    *("0." + "0" * 400 + "1", "0." + "0" * 400 + "1e800", "0." + "0" * 400 + "1e300"),
)


def digits(rng):
    return "".join(rng.choice("0123456789") for _ in range(rng.choice((1, 1, 1, 2, 3, 9, 10, 19, 20, 21, 40))))


def random_number(rng):
    """A number of random parts, each of which may be missing where it may not."""
    if rng.random() < 0.4:
        return rng.choice(ODD_NUMBERS)
    parts = [rng.choice(("", "", "", "-", "+"))]
    parts.append(rng.choice(("0", digits(rng), digits(rng).lstrip("0") or "7", "")) if rng.random() < 0.7 else str(rng.randint(0, 30)))
    if rng.random() < 0.4:
        parts.append("." + rng.choice((digits(rng), digits(rng), "")))
    if rng.random() < 0.4:
        parts.append(rng.choice("eE") + rng.choice(("", "+", "-")) + rng.choice((str(rng.randint(0, 330)), digits(rng)[:3], "")))
    return "".join(parts)


# ---- other values


def nested(rng, depth):
    """Arrays and objects in one another, so deep; now and then one of them isn't closed."""
    opened = [rng.choice(("[]", '{"a":}')) for _ in range(depth)] if rng.random() < 0.5 else [rng.choice(("[]", '{"a":}'))] * depth
    closed = [pair[-1] for pair in reversed(opened)]
    if rng.random() < 0.1:
        closed.pop(rng.randrange(len(closed)))
    inner = rng.choice(("1", "null", '"x"', "[]" if depth < 2 else "0.5"))
    return "".join(pair[:-1] for pair in opened) + inner + "".join(closed)


NO_VALUES = (
    *("nul", "True", "NULL", "tru", "falsee", "undefined", "", "'a'", "//", "/* */1"),
    *("[1,]", "[,1]", '{"a"}', '{"a":1,}', "{a:1}", "[1 2]", "[", "{", "]", '"'),
)


def random_value(rng, depth=3):
    roll = rng.random()
    if roll < 0.05:
        return nested(rng, rng.choice((1, 2, 60, 124, 125, 126, 127, 128, 129, 200)))
    if roll < 0.15 and depth:
        inner = [random_value(rng, depth - 1) for _ in range(rng.choice((0, 1, 2, 3)))]
        return f"[{','.join(inner)}]" if rng.random() < 0.5 else "{" + ",".join(f"{random_text(rng, 0.02)}:{value}" for value in inner) + "}"
    if roll < 0.4:
        return random_number(rng)
    if roll < 0.55:
        return random_text(rng)
    if roll < 0.65:
        return long_text(rng)
    if roll < 0.95:
        return rng.choice(("null", "true", "false", "0", "1", "2", "1024", "4294967295", "4294967296", '"a"', "[]", "{}", '""', '"1"'))
    return rng.choice(NO_VALUES)


def good_unknown(rng):
    """A value that is JSON, for most of the keys that no operation names."""
    return rng.choice(("0", "-1", "1.5", "1e3", "null", "true", '"main.c"', r'"\u00fc"', "[1,[2]]", '{"a":{"b":[]}}', str(rng.randint(0, 10**12))))


def escaped(rng, key):
    """A key with some of its letters as escapes."""
    return "".join(rng.choice((f"\\u{ord(letter):04x}", f"\\u{ord(letter):04X}")) if rng.random() < 0.4 else letter for letter in key)


# ---- right traces


def lawful_events(rng):
    """A few operations, mostly none of which is refused."""
    events, slots, open_threads = [], {}, []
    for _ in range(rng.choice((1, 3, 5, 8, 12, 20))):
        live, roll = list(slots), rng.random()
        holders = [x for x in live if slots[x]]
        if not live or roll < 0.25:
            new = max(live, default=0) + rng.choice((1, 1, 2, 90))
            slots[new] = rng.randint(0, 3)
            events.append({"op": "alloc", "id": new, "type": rng.choice(("A", "B", "größe")), "slots": slots[new]})
            if rng.random() < 0.3:
                events[-1]["thread"] = rng.choice((0, 1, 512, 1023))
            if not slots[new] and rng.random() < 0.5:
                del events[-1]["slots"]
        elif roll < 0.4 and holders:
            at = rng.choice(holders)
            events.append({"op": "store", "at": at, "slot": rng.randrange(slots[at]), "to": rng.choice([None, *live])})
        elif roll < 0.48 and holders:
            at = rng.choice(holders)
            events.append({"op": "set-weak", "at": at, "slot": rng.randrange(slots[at]), "weak": rng.random() < 0.5})
        elif roll < 0.6:
            events.append({"op": "root", "name": rng.choice(("r", "s", "ä", "€")), "to": rng.choice([None, *live])})
        elif roll < 0.68:
            events.append({"op": rng.choice(("assert-dead", "assert-unshared")), "id": rng.choice(live)})
        elif roll < 0.76:
            events.append({"op": "assert-instances", "type": rng.choice("AB"), "limit": rng.randint(0, 2)})
        elif roll < 0.84 and len(live) > 1:
            owner, ownee = rng.sample(live, 2)
            events.append({"op": "assert-ownedby", "owner": owner, "ownee": ownee})
        elif roll < 0.89:
            open_threads.append(rng.choice((0, 0, 1, 1023)))
            events.append({"op": "start-region", "thread": open_threads[-1]})
        elif roll < 0.94 and open_threads:
            events.append({"op": "assert-alldead", "thread": open_threads.pop()})
        else:
            events.append({"op": "collect"})
        if events[-1].get("thread") == 0 and rng.random() < 0.3:
            del events[-1]["thread"]
    return [*events, {"op": "collect"}]


# ---- what is changed of the members of a line, which are pairs of texts


def members_of(event):
    return [(json.dumps(key), json.dumps(value, ensure_ascii=False)) for key, value in event.items()]


def random_place(rng, members):
    """That of a member; seldom the first, which is mostly the operation."""
    return rng.randrange(1, len(members)) if len(members) > 1 and rng.random() < 0.9 else 0


# Values at the edges of what a field may have.
EDGES = {
    '"thread"': ("1023", "1024", "null", "0.0"),
    '"slots"': ("4294967295", "4294967296", "null", "0.0"),
    '"type"': ('""', r'"\u007f"', r'"\u0020"', "null"),
    '"name"': ('""', r'"\u001f"', '"\u0080"', "null"),
    '"weak"': ("0", "1", "null", '"true"'),
}


def put_odd_value(rng, members):
    place = random_place(rng, members)
    key = members[place][0]
    if rng.random() < 0.3:
        members[place] = (key, rng.choice(EDGES.get(key, ("0", "1", "4294967295", "4294967296", "1.0", "null"))))
    else:
        members[place] = (key, random_value(rng))


def take_out(rng, members):
    members.pop(random_place(rng, members))


def put_escaped_keys(rng, members):
    for place, (key, value) in enumerate(members):
        members[place] = (escaped(rng, key[:1]) if len(key) < 2 else f'"{escaped(rng, key[1:-1])}"', value)


def put_other_key(rng, members):
    place = random_place(rng, members)
    key = members[place][0][1:-1]
    other = rng.choice((key.upper(), key + " ", " " + key, key + r"\u0000", key[:-1], key + "s", rng.choice(FIELDS), random_text(rng)[1:-1]))
    members[place] = (rng.choice((f'"{other}"', f'"{other}"', f'"{other}"', other, f"'{other}'", "1", "null")), members[place][1])


def put_twice(rng, members):
    """A key once more, before or behind, with a value of its own."""
    key, value = rng.choice(members)
    if rng.random() < 0.3:
        key = f'"{escaped(rng, key[1:-1])}"'
    value = rng.choice((value, "1", "2", "null", '"A"', '"collect"', random_value(rng)))
    members.insert(rng.randint(0, len(members)), (key, value))


def put_unknown(rng, members):
    for _ in range(rng.choice((1, 1, 2, 6, 8, 9, 30))):
        key = rng.choice((f'"k{rng.randint(0, 50)}"', '"line"', '""', random_text(rng, 0.02)))
        members.insert(rng.randint(0, len(members)), (key, random_value(rng) if rng.random() < 0.04 else good_unknown(rng)))


def put_nested(rng, members):
    key = '"in"' if rng.random() < 0.8 else rng.choice(members)[0]
    members.insert(rng.randint(0, len(members)), (key, nested(rng, rng.choice((1, 3, 125, 126, 127, 128, 129)))))


def put_other_operation(rng, members):
    other = rng.choice((*OPERATIONS, "sweep", "Alloc", "alloc ", "", "assert-dea", "assert-deadd", "assert_dead", "collect\\u0000"))
    members[0] = (members[0][0], rng.choice((f'"{other}"', f'"{escaped(rng, other)}"' if "\\" not in other else f'"{other}"', other, f'["{other}"]')))


def reorder(rng, members):
    rng.shuffle(members)


def put_field_of_any_operation(rng, members):
    members.insert(rng.randint(0, len(members)), (f'"{rng.choice(FIELDS)}"', rng.choice(("1", "0", "null", "true", '"A"', random_value(rng)))))


# What stands more often is done more often.
MEMBER_CHANGES = (
    *(put_odd_value, put_odd_value, put_odd_value, put_odd_value, take_out, take_out, put_escaped_keys, put_other_key, put_twice, put_twice),
    *(put_unknown, put_unknown, put_nested, put_other_operation, reorder, put_field_of_any_operation),
)


def joined(rng, members):
    """The members as a line, with blanks here and there, most of which are right."""
    if rng.random() < 0.7:
        return "{" + ",".join(f"{key}:{value}" for key, value in members) + "}"
    blanks = ("", " ", "  ", "\t", "\r") if rng.random() < 0.9 else ("", " ", "\x0b", "\x0c", "\u00a0", "\u2028", "\ufeff", "\x00")

    def blank():
        return rng.choice(blanks)

    inner = ",".join(f"{blank()}{key}{blank()}:{blank()}{value}{blank()}" for key, value in members)
    return f"{blank()}{{{inner}}}{blank()}"


# ---- what is changed of the bytes of a line

STRUCTURE = b'{}[]:,"\\0123456789-+.eEtfn \t\r\n\x00\x1f\x7f\x80\xc3\xe2\xed\xf0\xff'


def random_byte(rng):
    return rng.choice(STRUCTURE) if rng.random() < 0.7 else rng.randrange(256)


def change_byte(rng, line):
    if line:
        line[rng.randrange(len(line))] = random_byte(rng)


def insert_byte(rng, line):
    line.insert(rng.randint(0, len(line)), random_byte(rng))


def delete_byte(rng, line):
    if line:
        del line[rng.randrange(len(line))]


def swap_bytes(rng, line):
    if len(line) > 1:
        at = rng.randrange(len(line) - 1)
        line[at], line[at + 1] = line[at + 1], line[at]


def flip_bit(rng, line):
    if line:
        line[rng.randrange(len(line))] ^= 1 << rng.randrange(8)


def cut_line(rng, line):
    del line[rng.randint(0, len(line)):]


def repeat_part(rng, line):
    start = rng.randint(0, len(line))
    line[start:start] = line[start:start + rng.choice((1, 2, 5, 20))]


def put_wrong_bytes(rng, line):
    at = rng.randint(0, len(line))
    line[at:at] = as_bytes(rng.choice(rng.choice((BAD_BYTES, BAD_PIECES, CONTROL_PIECES))))


TRAILING_TEXTS = (
    *("}", "]", ",", "x", "{}", "null", " 1", '\t"a"', "#", "//", '{"op":"collect"}', ' {"op":"collect"}'),
    *(" ", "\r", "\r\r", "\x00", "\x0c", "\u2028", "\udcff"),
)


def put_text_behind(rng, line):
    line += as_bytes(rng.choice(TRAILING_TEXTS))


def put_text_before(rng, line):
    line[:0] = as_bytes(rng.choice(("\ufeff", " ", "\t", "\r", "\x0b", "\x00", ",", "[", "{", "1", "null", "//", "\u00a0", "\udcff\udcfe")))


def put_value_in_place(rng, line):
    line[:] = as_bytes(random_value(rng))


def put_blanks_in_place(rng, line):
    line[:] = as_bytes(rng.choice(("", " ", "\t", "\r", " \t\r ", "\x0c", "\x0b", "\u00a0", "\x00", "\ufeff", " " * 300)))


BYTE_CHANGES = (
    *(change_byte, change_byte, insert_byte, insert_byte, delete_byte, delete_byte, swap_bytes, flip_bit, cut_line, repeat_part),
    *(put_wrong_bytes, put_text_behind, put_text_before, put_value_in_place, put_blanks_in_place),
)


def lengthen(rng, line):
    """Makes the line about as long as a line may be, by blanks, by a long text or by many members."""
    missing = LONGEST_LINE + rng.choice((-1, 0, 0, 1, 2, 20_000)) - len(line)
    if rng.random() < 0.4:
        line += b" " * missing
        return
    start = line.find(b"{") + 1
    piece = rng.choice((b'"x":"%s",', b'"x":[%s],', b'"name":"%s",'))
    filler = missing - len(piece) + 2
    if b"[" in piece:
        inside = (b"1," * (filler // 2 + 1))[:filler]
        line[start:start] = piece % (inside[:-1] + b"0" if rng.random() < 0.9 else inside)
    else:
        line[start:start] = piece % (b"y" * filler)


# ---- malformed traces


def random_line(rng, event, changes):
    """The line of an operation with so many changes, of which two thirds are of its members and the others of its bytes."""
    members = members_of(event)
    of_members = sum(rng.random() < 2 / 3 for _ in range(changes))
    for _ in range(of_members):
        if members:
            rng.choice(MEMBER_CHANGES)(rng, members)
    line = bytearray(as_bytes(joined(rng, members)))
    for _ in range(changes - of_members):
        rng.choice(BYTE_CHANGES)(rng, line)
    return line


# Members of right lines that change next to nothing.
STILL_MEMBERS = ('"op":"root","name":"none","to":null', '"op":"assert-instances","type":"None","limit":1', '"line":[1,{}],"op":"root","name":"none","to":null')


def still_line(rng):
    """A blank line, or a right one of some length that changes next to nothing."""
    return as_bytes(f'{{{rng.choice(STILL_MEMBERS)},"file":"{"x" * int(3_000 * rng.random() ** 16)}"}}') if rng.random() < 0.95 else b""


def with_many_lines(rng, lines):
    """The lines with many others between, so that the trace is read in many pieces, of which several may have a line that is refused."""
    between = rng.choice((300, 3_000, 30_000)) // (len(lines) + 1)
    stills = [still_line(rng) for _ in range(20)]
    for line in lines:
        yield from rng.choices(stills, k=between)
        yield line
    yield from rng.choices(stills, k=between)


def random_trace(seed):
    """The bytes of the trace of a seed."""
    rng = random.Random(seed)
    events = lawful_events(rng)
    odd_often = rng.choice((0.05, 0.2, 0.2, 0.5))
    lines = [random_line(rng, event, rng.choice((1, 1, 2, 4)) if rng.random() < odd_often else 0) for event in events]
    if rng.random() < 0.01:
        lengthen(rng, rng.choice(lines))
    for _ in range(rng.choice((0, 0, 0, 1, 2))):
        lines.insert(rng.randint(0, len(lines)), bytearray(rng.choice((b"", b" ", b"\t\r", b"\r"))))
    if rng.random() < 0.01:
        lines = list(with_many_lines(rng, lines))
    newline = rng.choice((b"\n", b"\n", b"\n", b"\r\n"))
    trace = newline.join(lines) + rng.choice((newline, newline, b""))
    if rng.random() < 0.05:
        trace = trace[:rng.randint(0, len(trace))]
    return trace


# ---- what the report must be


class LimitedHeap(Heap):
    """The heap of bench/random_traces.py, and the one limit of objects and slots that a small trace can pass."""

    def step(self, e):
        if e["op"] == "alloc" and e["id"] > self.greatest and sum(map(len, self.slots.values())) + e["slots"] > MOST_SLOTS:
            raise Refused("TooManySlots")
        super().step(e)


def report_of(readings):
    """The lines of the report, and the status, of a trace whose lines are read so."""
    heap, lines, number_of_collections, violations = LimitedHeap(), [], 0, 0
    for number, reading in enumerate(readings, 1):
        try:
            if isinstance(reading, str):
                raise Refused(reading)
            if reading is not None and reading["op"] == "collect":
                number_of_collections += 1
                text, found = heap.collect(number_of_collections, PATHS)
                lines += text
                violations += found
            elif reading is not None:
                heap.step(reading)
        except Refused as refusal:
            return [*lines, f"fault line {number}: {refusal}"], 2
    return [*lines, f"end gcs {number_of_collections} violations {violations}"], 1 if violations else 0


def is_too_large(readings):
    return any(isinstance(reading, dict) and MOST_SLOTS_HERE < reading.get("slots", 0) <= MOST_SLOTS for reading in readings)


def readings_of(plain, traces):
    """What `plain_lines` makes of the lines of each trace."""
    given = b"".join(b"%d\n%b" % (len(trace), trace) for trace in traces)
    ran = subprocess.run([plain], input=given, stdout=subprocess.PIPE, check=True)
    parts = ran.stdout.decode().split("\n")
    of_traces = [[]]
    for part in parts[:-1]:
        if part:
            of_traces[-1].append(json.loads(part))
        else:
            of_traces.append([])
    return of_traces[:-1]


# ---- comparing


class Work(NamedTuple):
    """The traces of so many seeds from the first on."""
    first: int
    count: int
    command: list
    plain: str
    workers: list


class Found(NamedTuple):
    """How many traces ended in each way, and what is said of each that differs."""
    ends: collections.Counter
    wrong: list


def end_of(lines):
    """The way in which a report ends, without its numbers."""
    words = lines[-1].split(": ")[-1].split()
    return " ".join(word for word in words if not word.isdigit()) if lines[-1].startswith("fault") else "read to the end"


def first_difference(got, wanted):
    pairs = zip([*got.split(b"\n"), b"nothing"], [*wanted.split(b"\n"), b"nothing"])
    return next((f"got {mine}, wanted {other}" for mine, other in pairs if mine != other), "the same text")


def differs(command, trace, wanted, status):
    """How a run of the program differs from what is wanted of it, or None."""
    try:
        ran = subprocess.run(command, input=trace, stdout=subprocess.PIPE, stderr=subprocess.PIPE, timeout=120)
    except subprocess.TimeoutExpired:
        return "no end within two minutes"
    if (ran.stdout, ran.returncode, ran.stderr) == (wanted, status, b""):
        return None
    return f"status {ran.returncode} for {status}; {first_difference(ran.stdout, wanted)}"


def compare(work):
    """Has the program read each trace of a batch."""
    seeds = range(work.first, work.first + work.count)
    traces = [random_trace(seed) for seed in seeds]
    found = Found(collections.Counter(), [])
    for seed, trace, readings in zip(seeds, traces, readings_of(work.plain, traces)):
        if is_too_large(readings):
            found.ends["left out: an object of too many slots for the heap here"] += 1
            continue
        lines, status = report_of(readings)
        found.ends[end_of(lines)] += 1
        wanted = "".join(line + "\n" for line in lines).encode()
        for workers in work.workers:
            if difference := differs([*work.command, "--workers", str(workers)], trace, wanted, status):
                found.wrong.append(f"seed {seed}, {workers} workers: {difference}")
    return found


def read_words():
    if "--help" in sys.argv[1:]:
        print(__doc__)
        sys.exit()
    parser = argparse.ArgumentParser(usage="bench/malformed.py [options], as bench/malformed.py --help says", add_help=False)
    parser.add_argument("--count", type=int, default=20_000)
    parser.add_argument("--first", type=int, default=1)
    parser.add_argument("--workers", type=int, nargs="+", default=[1])
    parser.add_argument("--processes", type=int, default=os.cpu_count())
    parser.add_argument("--program", default=PROGRAM)
    parser.add_argument("--first-argument")
    parser.add_argument("--show", type=int)
    return parser.parse_args()


def main():
    options = read_words()
    if options.show is not None:
        sys.stdout.buffer.write(random_trace(options.show))
        return
    plain_rust = need_plain_rust()
    if options.program == "plain_rust":
        options.program = plain_rust
    need_programs(options.program)
    plain = os.path.join(os.path.dirname(plain_rust), "plain_lines")
    command = [options.program] if options.first_argument is None else [options.program, options.first_argument]
    past = options.first + options.count
    batches = [Work(first, min(BATCH, past - first), command, plain, options.workers) for first in range(options.first, past, BATCH)]
    ends, wrong = collections.Counter(), 0
    with multiprocessing.Pool(options.processes) as pool:
        for found in pool.imap(compare, batches):
            ends += found.ends
            wrong += len(found.wrong)
            print(*found.wrong, sep="\n", end="\n" if found.wrong else "", flush=True)
    for end, count in ends.most_common():
        print(f"{count:8,} {end}")
    print(f"{options.count:,} traces from seed {options.first}, with {', '.join(map(str, options.workers))} workers each: {wrong} wrong")
    sys.exit(1 if wrong else 0)


if __name__ == "__main__":
    main()

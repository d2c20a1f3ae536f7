#!/usr/bin/env python3
"""Compares the built program with a plain reading of the definitions, on random traces of all operations.

Usage: bench/random_traces.py [tests_programs|gcminor|gccheck|plain_rust] [COUNT] [FIRST_SEED]     (1,000 traces from seed 1 by default)
With tests_programs it compares the auditor for which further workers cost nothing, instead of gcaudit. With gcminor it compares that
program, on traces of what it takes. With gccheck it has that program check the reports of gcaudit, with one
number of workers each, and once more with a byte changed, whose place must be named. With plain_rust it compares the program of bench/plain_rust.
Each trace is made from its seed alone, so a seed that is printed can be run again. It has about a hundred operations of
all kinds and several collections. `report_of` below follows docs/DEFINITIONS.md and the specs it names, with sets and
ids, and with no care for speed. Of three traces one is audited with each reaction, and of five one with few paths. The program
runs with 1, 2, 3 and 16 workers, and must print the same bytes and end with the same status each time. At the end small generated
traces are compared in the same way. The program must be built. Nothing here is part of the gate.
"""
import json
import os
import random
import subprocess
import sys
import tempfile

from run import need_plain_rust, need_programs

TOP = os.path.dirname(os.path.dirname(os.path.abspath(__file__)))
PROGRAM = os.path.join(TOP, "crates", "gcaudit", "out", "gcaudit")
TESTS_PROGRAMS = os.path.join(TOP, "crates", "tests_programs", "out", "tests_programs")
CHECKER = os.path.join(TOP, "crates", "gccheck", "out", "gccheck")
MINOR_PROGRAM = os.path.join(TOP, "crates", "gcminor", "out", "gcminor")
WORKERS = (1, 2, 3, 16)
PATHS = 100
END_STEPS = 32
REACTIONS = ("report", "halt", "force")


class Refused(Exception):
    """A line is refused."""


class Heap:
    """The heap of a trace. Slots are pairs of what they hold and whether they are weak."""

    def __init__(self):
        self.kind, self.slots, self.roots = {}, {}, {}
        self.greatest, self.dead, self.unshared = 0, set(), set()
        self.regions, self.limits, self.owner = {}, {}, {}

    def need(self, *ids):
        for i in ids:
            if i not in self.kind:
                raise Refused(f"NotLive {i}")

    def slot(self, at, slot):
        self.need(at)
        if slot >= len(self.slots[at]):
            raise Refused(f"BadSlot {slot}")
        return self.slots[at][slot]

    def step(self, e):
        op = e["op"]
        if op == "alloc":
            if e["id"] <= self.greatest:
                raise Refused(f"IdNotRising {e['id']}")
            self.greatest = e["id"]
            self.kind[e["id"]] = e["type"]
            self.slots[e["id"]] = [[None, False] for _ in range(e.get("slots", 0))]
            for region in self.regions.get(e.get("thread", 0), []):
                region.add(e["id"])
        elif op == "store":
            slot = self.slot(e["at"], e["slot"])
            if e["to"] is not None:
                self.need(e["to"])
            slot[0] = e["to"]
        elif op == "set-weak":
            self.slot(e["at"], e["slot"])[1] = e["weak"]
        elif op == "root":
            if e["to"] is None:
                self.roots.pop(e["name"], None)
            else:
                self.need(e["to"])
                self.roots[e["name"]] = e["to"]
        elif op == "assert-dead":
            self.need(e["id"])
            self.dead.add(e["id"])
        elif op == "assert-unshared":
            self.need(e["id"])
            self.unshared.add(e["id"])
        elif op == "start-region":
            stack = self.regions.setdefault(e.get("thread", 0), [])
            if len(stack) >= 64:
                raise Refused(f"TooDeep {e.get('thread', 0)}")
            stack.append(set())
        elif op == "assert-alldead":
            stack = self.regions.get(e.get("thread", 0), [])
            if not stack:
                raise Refused(f"NoRegion {e.get('thread', 0)}")
            self.dead |= stack.pop()
        elif op == "assert-instances":
            self.limits[e["type"]] = e["limit"]
        elif op == "assert-ownedby":
            self.need(e["owner"], e["ownee"])
            if e["owner"] == e["ownee"]:
                raise Refused(f"SelfOwned {e['owner']}")
            self.owner[e["ownee"]] = e["owner"]

    # ---- the stopped graph

    def edges(self, x):
        return [(k, held) for k, (held, weak) in enumerate(self.slots[x]) if held is not None and not weak]

    def reach(self, starts, passable):
        """What a path of no edge or more leads to from the starts; it goes on from what is passable."""
        met, work = set(starts), list(starts)
        while work:
            x = work.pop()
            if passable(x):
                for _, y in self.edges(x):
                    if y not in met:
                        met.add(y)
                        work.append(y)
        return met

    def analyse(self):
        self.owners = {o for o in self.owner.values() if o in self.kind}
        starts = [y for o in self.owners for _, y in self.edges(o)]
        self.under = self.reach(starts, lambda x: True)
        # root traced: a path from a root with no object on it under owners
        met = {x for x in self.roots.values() if x not in self.under}
        work = list(met)
        while work:
            for _, y in self.edges(work.pop()):
                if y not in met and y not in self.under:
                    met.add(y)
                    work.append(y)
        self.root_traced = met
        self.traced = self.under | self.root_traced
        self.refs = {x: [] for x in self.kind}
        for name in sorted(self.roots, key=lambda n: n.encode()):
            self.refs[self.roots[name]].append(("root", name))
        for s in sorted(self.traced | self.owners):
            for k, y in self.edges(s):
                self.refs[y].append(("slot", s, k))

    def finds(self, owner, ownee):
        border = self.owners | set(self.owner)
        return ownee in self.reach([y for _, y in self.edges(owner)], lambda x: x not in border)

    def is_met(self, ownee):
        return ownee in self.roots.values() or any(
            y == ownee for x in self.root_traced if x not in self.owners for _, y in self.edges(x))

    # ---- paths

    def canonical(self, by_roots, shut, to):
        """The canonical path to an object, as its texts, or None."""
        sources = []
        if by_roots:
            for name in sorted(self.roots, key=lambda n: n.encode()):
                x = self.roots[name]
                sources.append((x, [f"root {name} -> {x} {self.kind[x]}"]))
        else:
            for o in sorted(self.owners):
                for k, y in self.edges(o):
                    sources.append((y, [f"owner {o} {self.kind[o]}", self.text(k, y)]))
        level, path = {}, {}
        for x, texts in sources:
            if x not in level:
                level[x], path[x] = 1, texts
        now, depth = sorted(level), 1
        while now and to not in level:
            later = {}
            for x in now:
                if x not in shut:
                    for k, y in self.edges(x):
                        if y not in level and y not in later:
                            later[y] = path[x] + [self.text(k, y)]
            depth += 1
            for y, texts in later.items():
                level[y], path[y] = depth, texts
            now = sorted(later)
        return path.get(to)

    def text(self, slot, to):
        return f" [{slot}] -> {to} {self.kind[to]}"

    def plain(self, x):
        return self.canonical(True, set(), x) or self.canonical(False, set(), x)

    def by_reference(self, x, reference):
        if reference[0] == "root":
            return [f"root {reference[1]} -> {x} {self.kind[x]}"]
        _, holder, slot = reference
        return (self.plain(holder) or [f"owner {holder} {self.kind[holder]}"]) + [self.text(slot, x)]

    # ---- a collection

    def collect(self, number, paths=PATHS, force=False):
        self.analyse()
        verdicts = []
        for x in sorted(self.dead & self.traced):
            verdicts.append((f"dead {x} {self.kind[x]}", [self.plain(x)]))
        for kind in sorted(self.limits, key=lambda n: n.encode()):
            found = sorted(x for x in self.traced if self.kind[x] == kind)
            if len(found) > self.limits[kind]:
                head = f"instances {kind} limit {self.limits[kind]} found {len(found)}"
                verdicts.append((head, [self.plain(found[self.limits[kind]])]))
        for x in sorted(self.unshared):
            refs = self.refs[x]
            if len(refs) >= 2:
                verdicts.append((f"unshared {x} {self.kind[x]} refs {len(refs)}", [self.by_reference(x, r) for r in refs[:2]]))
        for x in sorted(self.owner):
            o = self.owner[x]
            if self.is_met(x) and (o not in self.kind or not self.finds(o, x)):
                gone = "" if o in self.kind else " gone"
                verdicts.append((f"ownedby {x} {self.kind[x]} owner {o}{gone}", [self.canonical(True, self.under | self.owners, x)]))
        lines = [f"gc {number} live {len(self.kind)} traced {len(self.traced)} freed {len(self.kind) - len(self.traced)}"]
        for place, (head, ways) in enumerate(verdicts):
            shown = " | ".join(shown_path(p) for p in ways) if place < paths else "path left out"
            lines.append(f"gc {number} {head}: {shown}")
        self.sweep()
        cleared = self.clear(self.dead) if force else 0
        if cleared:
            lines.append(f"gc {number} cleared {cleared}")
        return lines, len(verdicts)

    def clear(self, gone):
        """Empties every slot and takes away every root that holds one of these, and answers how many these are."""
        cleared = 0
        for slots in self.slots.values():
            for slot in slots:
                if slot[0] in gone:
                    slot[0] = None
                    cleared += 1
        names = [n for n, x in self.roots.items() if x in gone]
        for name in names:
            del self.roots[name]
        return cleared + len(names)

    def sweep(self):
        kept = self.traced
        self.kind = {x: k for x, k in self.kind.items() if x in kept}
        self.slots = {x: [[h if h in kept else None, w] for h, w in s] for x, s in self.slots.items() if x in kept}
        self.dead &= kept
        self.unshared &= kept
        self.owner = {x: o for x, o in self.owner.items() if x in kept}
        for stack in self.regions.values():
            for region in stack:
                region &= kept


def shown_path(texts):
    """The first text of a path from an owner or a root is its start."""
    start, steps = texts[0], texts[1:]
    if len(steps) <= 2 * END_STEPS:
        return start + "".join(steps)
    left_out = len(steps) - 2 * END_STEPS
    return start + "".join(steps[:END_STEPS]) + f" ... {left_out} steps ..." + "".join(steps[-END_STEPS:])


def report_of(events, paths=PATHS, react="report"):
    heap, lines, collections, violations = Heap(), [], 0, 0
    for number, event in enumerate(events, 1):
        if event["op"] == "collect":
            collections += 1
            text, found = heap.collect(collections, paths, react == "force")
            lines += text
            violations += found
            if react == "halt" and found:
                lines.append(f"halt gc {collections} violations {found}")
                return lines, 1
            continue
        try:
            heap.step(event)
        except Refused as refusal:
            lines.append(f"fault line {number}: {refusal}")
            return lines, 2
    lines.append(f"end gcs {collections} violations {violations}")
    return lines, 1 if violations else 0


def generated(number, size):
    """The operations of the trace that is generated from this number with so many objects."""
    x, eighth = number, max(1, size // 8)
    for i in range(1, size + 1):
        x = (x * 1103515245 + 12345) % 2**31
        r = x // 65536
        yield {"op": "alloc", "id": i, "type": f"T{r % 4}", "slots": 3}
        if i == 1:
            yield {"op": "root", "name": "main", "to": 1}
        elif r % 16:
            yield {"op": "store", "at": i // 2, "slot": i % 2, "to": i}
        yield {"op": "store", "at": i, "slot": 2, "to": 1 + r % i}
        if i % eighth == 0:
            yield (
                {"op": "assert-dead", "id": i},
                {"op": "assert-unshared", "id": i},
                {"op": "assert-ownedby", "owner": i // 2, "ownee": i},
                {"op": "assert-instances", "type": "T0", "limit": i // 4},
            )[i // eighth % 4]
    yield {"op": "collect"}
    yield {"op": "root", "name": "main", "to": None}
    yield {"op": "collect"}


def random_trace(seed):
    """Operations that are mostly not refused; one trace in ten has a line that is."""
    rng = random.Random(seed)
    live, slots, greatest, depth, events = [], {}, 0, [0] * 3, []
    roots = [f"r{n}" for n in range(rng.randint(1, 12))]
    kinds = [f"K{n}" for n in range(rng.randint(1, 5))]
    size = rng.randint(20, 400)
    most_slots = rng.choice((1, 2, 4))
    weak_often = rng.random() < 0.3
    model = Heap()
    refuse_at = rng.randint(1, size) if rng.random() < 0.1 else None
    for n in range(size):
        live = list(model.kind)
        roll = rng.random()
        if not live or roll < 0.3:
            greatest += rng.choice((1, 1, 1, 2, 7))
            event = {"op": "alloc", "id": greatest, "type": rng.choice(kinds), "slots": rng.randint(0, most_slots), "thread": rng.randint(0, 2)}
        elif roll < 0.6:
            holders = [x for x in live if model.slots[x]]
            if not holders:
                continue
            at = rng.choice(holders)
            event = {"op": "store", "at": at, "slot": rng.randrange(len(model.slots[at])), "to": rng.choice(live) if rng.random() < 0.9 else None}
        elif roll < 0.68:
            event = {"op": "root", "name": rng.choice(roots), "to": rng.choice(live) if rng.random() < 0.75 else None}
        elif roll < 0.72:
            event = {"op": "assert-dead", "id": rng.choice(live)}
        elif roll < 0.76:
            event = {"op": "assert-unshared", "id": rng.choice(live)}
        elif roll < 0.84:
            owner, ownee = rng.choice(live), rng.choice(live)
            if owner == ownee:
                continue
            event = {"op": "assert-ownedby", "owner": owner, "ownee": ownee}
        elif roll < 0.86:
            event = {"op": "assert-instances", "type": rng.choice(kinds + ["None"]), "limit": rng.randint(0, 6)}
        elif roll < 0.9:
            thread = rng.randint(0, 2)
            event = {"op": "start-region", "thread": thread}
        elif roll < 0.92:
            thread = rng.randint(0, 2)
            if not model.regions.get(thread):
                continue
            event = {"op": "assert-alldead", "thread": thread}
        elif roll < 0.96:
            holders = [x for x in live if model.slots[x]]
            if not holders:
                continue
            at = rng.choice(holders)
            event = {"op": "set-weak", "at": at, "slot": rng.randrange(len(model.slots[at])), "weak": weak_often and rng.random() < 0.7}
        else:
            event = {"op": "collect"}
        if refuse_at is not None and n >= refuse_at:
            event = {"op": "store", "at": greatest + 1, "slot": 0, "to": None}
        events.append(event)
        if event["op"] == "collect":
            model.collect(1)
        else:
            try:
                model.step(event)
            except Refused:
                break
    events.append({"op": "collect"})
    return events


def as_lines(events):
    return "".join(json.dumps(e, separators=(",", ":")) + "\n" for e in events).encode()


# ---- minor collections


class YoungHeap(Heap):
    """The heap of a trace of gcminor, with its young objects."""

    def __init__(self):
        super().__init__()
        self.young = set()

    def step(self, e):
        if e["op"] not in ("alloc", "store", "root"):
            raise Refused("UnknownOp")
        super().step(e)
        if e["op"] == "alloc":
            self.young.add(e["id"])

    def holds_young(self, x):
        return any(y in self.young for _, y in self.edges(x))

    def remembered(self):
        return [x for x in sorted(self.kind) if x not in self.young and self.holds_young(x)]

    def collect(self, number):
        live, remembered, starts = len(self.kind), self.remembered(), set(self.roots.values())
        if number % 4 == 0:
            kept = self.reach(starts, lambda x: True)
        else:
            old = set(self.kind) - self.young
            starts |= {y for x in old for _, y in self.edges(x)}
            kept = old | self.young_reach(starts & self.young)
        self.kind = {x: self.kind[x] for x in self.kind if x in kept}
        self.slots = {x: [[y if y in kept else None, weak] for y, weak in self.slots[x]] for x in self.kind}
        self.young = set()
        freed = live - len(self.kind)
        return f"full {number} live {live} freed {freed}" if number % 4 == 0 else f"minor {number} live {live} freed {freed} remembered {len(remembered)}"

    def young_reach(self, starts):
        met, work = set(starts), list(starts)
        while work:
            for _, y in self.edges(work.pop()):
                if y in self.young and y not in met:
                    met.add(y)
                    work.append(y)
        return met


def minor_report_of(events):
    """The lines that gcminor must print, and its status."""
    heap, lines, collections = YoungHeap(), [], 0
    for number, event in enumerate(events, 1):
        if event["op"] == "collect":
            collections += 1
            lines.append(heap.collect(collections))
            continue
        try:
            heap.step(event)
        except Refused as refusal:
            return [*lines, f"fault line {number}: {refusal}"], 2
    return [*lines, f"end gcs {collections}"], 0


def random_minor_trace(seed):
    """Operations that gcminor takes; one trace in ten has a line that is refused."""
    rng = random.Random(seed)
    heap, greatest, events, collections = YoungHeap(), 0, [], 0
    roots = [f"r{n}" for n in range(rng.randint(1, 8))]
    size, most_slots = rng.randint(10, 250), rng.choice((1, 2, 4))
    collect_often = rng.choice((0.02, 0.06, 0.15))
    refuse_at = rng.randint(1, size) if rng.random() < 0.1 else None
    for n in range(size):
        live, roll = list(heap.kind), rng.random()
        holders = [x for x in live if heap.slots[x]]
        if refuse_at is not None and n >= refuse_at:
            event = rng.choice(({"op": "store", "at": greatest + 1, "slot": 0, "to": None}, {"op": "assert-dead", "id": greatest + 1}, {"op": "alloc", "id": max(greatest, 1), "type": "K"} if greatest else {"op": "start-region"}))
        elif roll < collect_often:
            event = {"op": "collect"}
        elif not live or roll < 0.4:
            greatest += rng.choice((1, 1, 1, 2, 7))
            event = {"op": "alloc", "id": greatest, "type": f"K{rng.randint(0, 3)}", "slots": rng.randint(0, most_slots)}
        elif roll < 0.85 and holders:
            at = rng.choice(holders)
            event = {"op": "store", "at": at, "slot": rng.randrange(len(heap.slots[at])), "to": rng.choice(live) if rng.random() < 0.75 else None}
        else:
            event = {"op": "root", "name": rng.choice(roots), "to": rng.choice(live) if rng.random() < 0.6 else None}
        events.append(event)
        if event["op"] == "collect":
            collections += 1
            heap.collect(collections)
        else:
            try:
                heap.step(event)
            except Refused:
                break
    events.append({"op": "collect"})
    return events


def minor_main(count, first):
    wrong = collections = 0
    for seed in range(first, first + count):
        events = random_minor_trace(seed)
        lines, status = minor_report_of(events)
        collections += sum(1 for line in lines if " live " in line)
        run = subprocess.run([MINOR_PROGRAM], input=as_lines(events), capture_output=True, timeout=120)
        if (run.stdout, run.returncode) != (("\n".join(lines) + "\n").encode(), status):
            wrong += 1
            print(f"seed {seed}: status {run.returncode}, not {status}\n  got  {run.stdout.decode().splitlines()}\n  want {lines}")
    print(f"{count} traces of gcminor from seed {first}: {collections} collections, {wrong} wrong")
    sys.exit(1 if wrong else 0)


# ---- comparing


def differs(command, words, trace, expected):
    """Runs the command with these words and each number of workers, and says where it first differs, or None."""
    lines, status = expected
    for workers in WORKERS:
        run = subprocess.run([*command, "--workers", str(workers), *words], input=trace, capture_output=True, timeout=120)
        if (run.stdout, run.returncode) != (("\n".join(lines) + "\n").encode(), status):
            for got, want in zip(run.stdout.decode().splitlines(), lines):
                if got != want:
                    return f"{workers} workers: status {run.returncode}, not {status}\n  got  {got}\n  want {want}"
            return f"{workers} workers: status {run.returncode}, not {status}"
    return None


def check_main(count, first):
    """Has the reports of random traces checked."""
    wrong = 0
    with tempfile.TemporaryDirectory() as folder:
        trace, report = (os.path.join(folder, name) for name in ("trace", "report"))
        for seed in range(first, first + count):
            with open(trace, "wb") as file:
                file.write(as_lines(random_trace(seed)))
            paths = str(PATHS if seed % 5 else seed % 7)
            with open(trace, "rb") as given:
                said = subprocess.run([PROGRAM, "--workers", str(WORKERS[seed % len(WORKERS)]), "--paths", paths], stdin=given, stdout=subprocess.PIPE).stdout
            at = seed * 7919 % len(said)
            for text, want in ((said, (b"report equal\n", 0)), (said[:at] + bytes([said[at] ^ 1]) + said[at + 1:], (b"report differs at byte %d\n" % (at + 1), 1))):
                with open(report, "wb") as file:
                    file.write(text)
                ran = subprocess.run([CHECKER, trace, report, paths], stdout=subprocess.PIPE)
                if (ran.stdout, ran.returncode) != want:
                    wrong += 1
                    print(f"seed {seed}: {ran.stdout} with status {ran.returncode}, in place of {want}")
    print(f"{count} traces from seed {first}, each with its report and with a byte of that changed: {wrong} wrong")
    sys.exit(1 if wrong else 0)


def churning_trace(seed):
    """Objects that come and go by hundreds, with up to 200 slots, and with ids that rise by one for a while and by thousands later."""
    rng, model, events, greatest = random.Random(seed), Heap(), [], 0

    def add(event):
        model.step(event)
        events.append(event)

    for _ in range(rng.randint(3, 6)):
        step, kept = rng.choice((1, 1, 1, 3, 60, 5_000)), rng.choice((0.02, 0.3, 0.9))
        for _ in range(rng.randint(100, 900)):
            greatest += rng.randint(1, step)
            add({"op": "alloc", "id": greatest, "type": f"K{greatest % 7}", "slots": rng.choice((0, 1, 2, 3, 64, 65, rng.randint(0, 200)))})
            if rng.random() < kept:
                add({"op": "root", "name": f"r{rng.randrange(900)}", "to": greatest})
        live = list(model.kind)
        for at in rng.sample(live, len(live) // 2):
            if model.slots[at]:
                slot = rng.randrange(len(model.slots[at]))
                add({"op": "store", "at": at, "slot": slot, "to": rng.choice(live)})
                add({"op": "set-weak", "at": at, "slot": slot, "weak": rng.random() < 0.1})
        for name in [name for name in model.roots if rng.random() > kept]:
            add({"op": "root", "name": name, "to": None})
        for number, id in enumerate(rng.sample(live, min(len(live), 20))):
            add({"op": ("assert-dead", "assert-unshared")[number % 2], "id": id})
        events.append({"op": "collect"})
        model.collect(1, paths=0)
    return events


def plain_main(count, first):
    """Compares the plain Rust program: read in one pass and by `Value`, by three workers, and with larger limits. Of 50 traces one is larger."""
    program, wrong = need_plain_rust(), 0
    for seed in range(first, first + count):
        events = random_trace(seed) if seed % 50 else churning_trace(seed)
        paths = PATHS if seed % 5 else seed % 7
        lines, status = report_of(events, paths)
        trace = as_lines(events)
        for words in ((), ("--value",), ("--workers", "3"), ("--large",)):
            run = subprocess.run([program, "--paths", str(paths), *words], input=trace, capture_output=True, timeout=120)
            if (run.stdout, run.returncode) != (("\n".join(lines) + "\n").encode(), status):
                wrong += 1
                print(f"seed {seed} {' '.join(words)}: status {run.returncode}, not {status}\n  got  {run.stdout.decode().splitlines()}\n  want {lines}")
    print(f"{count} traces of plain_rust, in four ways each, from seed {first}: {wrong} wrong")
    sys.exit(1 if wrong else 0)


# The words that name another program, each with what is compared and the programs that it needs.
OTHERS = {"gcminor": (minor_main, [MINOR_PROGRAM]), "gccheck": (check_main, [PROGRAM, CHECKER]), "plain_rust": (plain_main, [])}


def main():
    if sys.argv[1:] and sys.argv[1] in OTHERS:
        compare, programs = OTHERS[sys.argv[1]]
        need_programs(*programs)
        numbers = [int(word) for word in sys.argv[2:4]]
        compare(*(numbers + [1000, 1][len(numbers):]))
    words, command = sys.argv[1:], [PROGRAM]
    if words and words[0] == "tests_programs":
        words, command = words[1:], [TESTS_PROGRAMS, "gcaudit"]
    need_programs(command[0])
    count = int(words[0]) if words else 1000
    first = int(words[1]) if len(words) > 1 else 1
    wrong = verdicts = 0
    for seed in range(first, first + count):
        events = random_trace(seed)
        react, paths = REACTIONS[seed % 3], PATHS if seed % 5 else seed % 7
        expected = report_of(events, paths, react)
        verdicts += sum(1 for l in expected[0] if l.startswith("gc ") and " live " not in l)
        if difference := differs(command, ["--react", react, "--paths", str(paths)], as_lines(events), expected):
            wrong += 1
            print(f"seed {seed}, {react}, {paths} paths, {difference}")
    for number in range(first, first + 40):
        size, react = 1 + number * 7 % 200, REACTIONS[number % 3]
        expected = report_of(list(generated(number, size)), PATHS, react)
        if difference := differs(command, ["--gen", str(number), "--size", str(size), "--react", react], b"", expected):
            wrong += 1
            print(f"--gen {number} --size {size}, {react}, {difference}")
    print(f"{count} traces from seed {first} and 40 generated ones, each with {', '.join(map(str, WORKERS))} workers: {verdicts} verdicts, {wrong} wrong")
    sys.exit(1 if wrong else 0)


if __name__ == "__main__":
    main()

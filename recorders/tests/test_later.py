"""One trace of several dumps says at each collection what the trace of that dump alone says."""
import os
import random
import unittest
from unittest import mock

from gcaudit_trace.dumps import later
from gcaudit_trace.dumps.later import continue_trace
from gcaudit_trace.reports.audit import audit
from gcaudit_trace.traces.trace_writer import TraceWriter
from tests.support import InFolder, events, needs_program

TYPES = ("A", "B", "C")


class Process:
    """A made-up program: objects with keys that hold one another, roots, and what is asserted of them."""

    def __init__(self, seed):
        self.random = random.Random(seed)
        self.last_key = 0
        self.held = {}  # by key a list of label, key and whether weakly
        self.types = {}
        self.roots = {}
        self.dead, self.unshared, self.owners = set(), set(), {}
        self.ownee_died = False  # at the last step
        self.limits = {"B": self.random.randrange(8)}

    def step(self):
        """Some objects more, other references and roots; what nothing leads to is gone."""
        some = self.random
        for _ in range(some.randrange(12)):
            self.last_key += 1
            self.types[self.last_key] = some.choice(TYPES)
            self.held[self.last_key] = []
        keys = list(self.held)
        if not keys:
            return
        for key in some.sample(keys, min(len(keys), 8)):
            self.held[key] = [("[%d]" % at, some.choice(keys), some.random() < 0.2) for at in range(some.randrange(9))]
        self.roots = {"root %d" % number: some.choice(keys) for number in range(some.randrange(1, 4))}
        for kind in (self.dead, self.unshared):
            kind.update(some.sample(keys, min(len(keys), some.randrange(3))))
        if len(keys) > 1 and some.random() < 0.7:
            owner, ownee = some.sample(keys, 2)
            self.owners.setdefault(ownee, owner)
        self.collect()

    def collect(self):
        live, work = set(), list(self.roots.values())
        while work:
            key = work.pop()
            if key not in live:
                live.add(key)
                work += [to for _, to, weak in self.held[key] if not weak]
        self.ownee_died = any(key in self.held and key not in live for key in self.owners)
        self.held = {key: [one for one in held if one[1] in live] for key, held in self.held.items() if key in live}

    def write(self, path):
        """The trace of a dump, as the readers of dumps write it."""
        with open(path, "w") as file:
            trace, numbers = TraceWriter(file.write), {}
            keys = list(self.held)
            self.random.shuffle(keys)
            for key in keys:
                numbers[key] = trace.alloc(self.types[key], len(self.held[key]) + 1, 0, 16 + len(self.held[key]), key)
            for key in keys:
                trace.fill(numbers[key], [(label, numbers[to], weak) for label, to, weak in self.held[key]])
            for name, key in self.roots.items():
                trace.root(name, numbers[key])
            for key in self.dead & set(keys):
                trace.assert_dead(numbers[key])
            for name, limit in self.limits.items():
                trace.assert_instances(name, limit)
            for key in self.unshared & set(keys):
                trace.assert_unshared(numbers[key])
            for ownee, owner in self.owners.items():
                if ownee in numbers:
                    gone = numbers.get(owner) or trace.alloc(self.types[owner], 0)
                    trace.assert_owned_by(gone, numbers[ownee])
            trace.collect()


def told(verdicts, ids=None):
    """What violations say. A later dump's ids are those of the whole trace."""
    return sorted((one.kind, (ids or {}).get(one.number, one.number), one.type_name, one.count) for one in verdicts)


class Later(InFolder):
    @needs_program
    def test_each_collection_says_what_its_dump_alone_says(self):
        """But where an object died that is owned: in the whole trace its owner counts for this collection still."""
        kinds, differed = set(), 0
        for seed in range(60):
            process = Process(seed)
            process.step()
            process.write(self.path("whole"))
            for collection in range(2, 6):
                process.step()
                process.write(self.path("alone"))
                made = continue_trace(self.path("whole"), self.path("alone"), self.path("whole"))
                self.assertEqual(made.collections, collection)
                alone = audit(self.path("alone"))
                whole = [one for one in audit(self.path("whole")).verdicts if one.collection == collection]
                expected, found = told(alone.verdicts, made.ids), told(whole)
                kinds.update(one[0] for one in found)
                if not process.ownee_died:
                    self.assertEqual(found, expected, (seed, collection))
                differed += found != expected
        self.assertEqual(kinds, {"dead", "instances", "unshared", "ownedby"})
        self.assertLess(differed, 5)

    def test_an_object_keeps_its_id_and_what_is_gone_is_not_stored(self):
        first, second, whole = self.path("first"), self.path("second"), self.path("whole")
        self.trace(first, {5: ["A", [6, 7]], 6: ["B", []], 7: ["C", []]})
        self.trace(second, {8: ["D", [7]], 7: ["C", [8]], 5: ["A", [7, 7, 7, 7, 8]]})
        made = continue_trace(first, second, whole)
        allocated = [(event["id"], event["type"]) for event in events(whole) if event["op"] == "alloc"]
        self.assertEqual(allocated, [(1, "A"), (2, "B"), (3, "C"), (4, "D"), (5, "more of A")])
        self.assertEqual(made.ids, {1: 4, 2: 3, 3: 1})
        collections = [place for place, event in enumerate(events(whole)) if event["op"] == "collect"]
        self.assertEqual(len(collections), 2)
        changes = events(whole)[collections[0] + 1 :]
        self.assertEqual([event for event in changes if event.get("to") == 2], [])
        with open(first) as before, open(whole) as after:
            self.assertTrue(after.read().startswith(before.read()))

    def test_an_owner_that_is_gone_stays_the_owner(self):
        """An object without a key stands for it in the later dump; in the whole trace it is the owner that was there."""
        first, second, whole = self.path("first"), self.path("second"), self.path("whole")
        self.trace(first, {5: ["A", [6, 7]], 6: ["O", [7]], 7: ["E", []]}, owned=(6, 7))
        self.trace(second, {5: ["A", [7]], 7: ["E", []]}, owned=(None, 7))
        continue_trace(first, second, whole)
        self.assertEqual([event["owner"] for event in events(whole) if event["op"] == "assert-ownedby"], [2])

    def test_a_number_that_another_type_has_is_another_object(self):
        first, second, whole = self.path("first"), self.path("second"), self.path("whole")
        self.trace(first, {5: ["A", [6]], 6: ["B", []]})
        self.trace(second, {5: ["A", [6]], 6: ["C", []]})
        self.assertEqual(continue_trace(first, second, whole).ids, {1: 1, 2: 3})

    def test_more_objects_than_gcaudit_takes(self):
        first, second, whole = self.path("first"), self.path("second"), self.path("whole")
        self.trace(first, {5: ["A", [6]], 6: ["A", []]})
        self.trace(second, {7: ["A", []], 5: ["A", [7]]})
        for limit, fits in ((3, True), (2, False)):
            with mock.patch.object(later, "MOST_OBJECTS", limit):
                made = continue_trace(first, second, whole)
                self.assertEqual((made is not None, os.path.exists(whole)), (fits, fits))
            if fits:
                os.unlink(whole)

    @staticmethod
    def trace(path, objects, owned=()):
        """The trace of a dump: by key the type of each object and the keys of what it holds. A root has that with the key 5."""
        with open(path, "w") as file:
            trace = TraceWriter(file.write)
            numbers = {key: trace.alloc(name, len(held) + 1, 0, None, key) for key, (name, held) in objects.items()}
            for key, (_, held) in objects.items():
                trace.fill(numbers[key], [("[%d]" % at, numbers[to], False) for at, to in enumerate(held)])
            trace.root("root", numbers[5])
            for owner, ownee in [owned] if owned else []:
                trace.assert_owned_by(numbers.get(owner) or trace.alloc("O", 0), numbers[ownee])
            trace.collect()


if __name__ == "__main__":
    unittest.main()

"""An object that is asserted dead is found whatever holds it: the table of holders.py."""
import contextlib
import gc
import importlib.util
import os
import re
import subprocess
import sys
import types
import unittest
import warnings

from tests.holders import HOLDERS, Plain
from tests.support import PROGRAM, RECORDERS, InFolder, needs_program, python_with

from gcaudit_recorder import HeapViolation, HeapWarning, Recorder

NEEDS_NUMPY = "array_of_numpy"
# The interpreter or C code holds these where Python's collector doesn't look, in some versions of Python or in all.
UNSEEN = {"exit_handler", "callback_of_sqlite", "chained_iterators"}


# Nothing takes these away, so what they are made of stays.
ENDLESS = {"audit_hook", "codec"}


class Thing:
    """What all that is held has in common."""


class Held:
    """One object of a class of its own for each kind of holder, and what holds it."""

    def __init__(self, names):
        self.undo = contextlib.ExitStack()
        self.places = {}
        self.objects = {}
        for name in names:
            self.places[name] = types.ModuleType("place of " + name)
            self.objects[name] = type("Held by " + name, (Thing,), {})()
            HOLDERS[name](self.places[name], self.objects[name], self.undo)

    def assert_dead(self, recorder):
        while self.objects:
            recorder.assert_dead(self.objects.popitem()[1])

    def let_go(self):
        self.undo.close()
        for place in self.places.values():
            vars(place).clear()


def found_in(report):
    """The kinds of holder that the report has a line of, each with its line."""
    lines = [line for line in report.split("\n") if " dead " in line]
    return {line.split("Held by ", 1)[1].split(":")[0].replace("tests.test_holders.", ""): line for line in lines}


def kinds():
    has_numpy = importlib.util.find_spec("numpy") is not None
    return [name for name in HOLDERS if name != NEEDS_NUMPY or has_numpy]


@needs_program
class Holders(InFolder):
    FORK = False

    def report(self, held, roots, **words):
        with self.assertRaises(HeapViolation) as caught:
            with Recorder(self.path("trace.jsonl"), roots, fork=self.FORK, **words) as recorder:
                held.assert_dead(recorder)
                recorder.check(PROGRAM)
        return caught.exception.named

    def test_there_are_73(self):
        """As gcaudit_recorder/README.md says."""
        self.assertEqual(len(HOLDERS), 73)

    def test_each_is_found(self):
        held = Held(kinds())
        self.addCleanup(held.let_go)
        found = found_in(self.report(held, dict(held.places)))
        self.assertEqual(sorted(found), sorted(kinds()))
        beside = {name for name, line in found.items() if "root (alive, and no root leads to it)" in line}
        for name, chain in (
            ("class_attribute", r"class \S+Cache \.entries -> \d+ list \[0\] -> "),
            ("frame", r"frame function \(local held\) -> "),
            ("dynamic_class", r"class \S+Dynamic \.held -> "),
            ("stack_of_a_thread", r"frame run:\d+ \(thread Thread-\d+.*?\) \(local held\) -> "),
            ("timer", r"threading\.Timer \.args -> "),
            ("finalizer", r"\.args -> \d+ tuple \[0\] -> "),
            (
                "callback_of_sqlite",
                r"no object that Python's collector knows: .* functools\.partial \.args -> \d+ tuple \[0\] -> ",
            ),
        ):
            self.assertIn(name, beside)
            self.assertRegex(found[name], chain)

    def test_each_is_found_among_everything(self):
        held = Held(kinds())
        self.addCleanup(held.let_go)
        found = found_in(self.report(held, "everything"))
        self.assertEqual(sorted(found), sorted(kinds()))
        beside = {name for name, line in found.items() if "root (alive, and no root leads to it)" in line}
        self.assertLessEqual(beside, UNSEEN)

    def test_each_is_found_among_inner_objects(self):
        held = Held(kinds())
        self.addCleanup(held.let_go)
        found = found_in(self.report(held, dict(held.places), deep=True))
        self.assertEqual(sorted(found), sorted(kinds()))
        for name in (
            "traceback",
            "context_of_an_exception",
            "frame",
            "class_attribute",
            "dynamic_class",
            "property_of_a_class",
            "globals_of_a_function",
        ):
            self.assertIn("root %s -> " % name, found[name])

    def test_the_twins_pass(self):
        held = Held(kinds())
        with Recorder(self.path("trace.jsonl"), {"test": self}, fork=self.FORK) as recorder:
            held.assert_dead(recorder)
            held.let_go()
            recorder.check(PROGRAM)
        self.assertEqual(len(gc.get_objects()) > 0, True)

    def test_a_region_sees_what_each_holds(self):
        """Nothing of it is reached by a root; when it is let go in the region, nothing is left."""
        Held(kinds()).let_go()  # what Python keeps from a first use on
        for is_mended in (False, True):
            recorder = Recorder(self.path("trace.jsonl"), {"test": self}, fork=self.FORK)
            with recorder.region():
                held = Held(name for name in kinds() if not (is_mended and name in ENDLESS))
                held.objects.clear()
                if is_mended:
                    held.let_go()
                    del held
            said = ""
            try:
                recorder.check(PROGRAM)
            except HeapViolation as violation:
                said = violation.named
            if not is_mended:
                held.let_go()
                del held
            found = re.findall(r" dead \d+ tests\.test_holders\.Held by (\w+): ", said)
            self.assertEqual(sorted(found), [] if is_mended else sorted(kinds()))
            self.assertEqual(" dead " in said, not is_mended, said)

    def test_a_limit_counts_what_each_holds(self):
        """Of all subclasses, the class itself, and what the roots reach: so many as there are kinds, or none."""
        kept = Plain()
        for is_mended, words, found in (
            (False, dict(subclasses=True), len(kinds())),
            (True, dict(subclasses=True), None),
            (False, dict(subclasses=True, reached_only=True), None),
            (False, {}, None),
        ):
            held = Held(kinds())
            held.objects.clear()
            if is_mended:
                held.let_go()
            recorder = Recorder(self.path("trace.jsonl"), {"kept": kept}, fork=self.FORK)
            recorder.assert_instances(Thing, 0, **words)
            said = ""
            with warnings.catch_warnings(record=True) as warned:
                warnings.simplefilter("always", HeapWarning)
                try:
                    recorder.check(PROGRAM)
                except HeapViolation as violation:
                    said = violation.named
            if not is_mended:
                held.let_go()
            self.assertEqual(
                re.findall(r"instances (\S+) limit 0 found (\d+)", said),
                [] if found is None else [("tests.test_holders.Thing+", str(found))],
            )
            texts = [str(one.message) for one in warned if one.category is HeapWarning]
            self.assertEqual(len(texts), 0 if words else 1)
            if not words:
                self.assertRegex(
                    texts[0], r"no object of exactly \S+Thing is there, and %d of its subclasses " % len(kinds())
                )

    @unittest.skipIf(python_with("numpy") is None, "numpy is not there")
    def test_numpy(self):
        program = (
            "import sys; sys.path.insert(0, %r)\nfrom tests.test_holders import *\nimport tempfile\nheld = Held([NEEDS_NUMPY])\n"
            "try:\n    recorder = Recorder(%r, dict(held.places))\n    held.assert_dead(recorder)\n    recorder.check(%r)\n"
            "except HeapViolation as violation:\n    print(violation)\n"
        ) % (RECORDERS, self.path("trace.jsonl"), PROGRAM)
        done = subprocess.run(
            [python_with("numpy"), "-B", "-c", program],
            stdout=subprocess.PIPE,
            env=dict(os.environ, PYTHONPATH=RECORDERS),
        )
        self.assertRegex(done.stdout.decode(), r"\.array -> \d+ numpy\.ndarray \[0\] -> ")


@unittest.skipUnless(hasattr(os, "fork"), "no fork")
class HoldersInAChild(Holders):
    """The same where the walk is in a forked child of the process."""

    FORK = True


if __name__ == "__main__":
    unittest.main()

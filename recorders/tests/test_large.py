"""--large: for heaps that are too large for gcaudit, the commands run gcheap in its place."""
import json
import os
import subprocess
import sys
import unittest
from unittest import mock

from tests.support import LARGE, PROGRAM, RECORDERS
from tests.test_dumps import written_hprof
from tests.test_view import COLLECT, DEAD, LEAK, Commands, alloc

from gcaudit_trace import TraceError, find_program

ONE = [alloc(1, "A"), {"op": "root", "name": "r", "to": 1}, {"op": "assert-dead", "id": 1}, COLLECT]
OF_ONE = "gc 1 live 1 traced 1 freed 0\ngc 1 dead 1 A: root r -> 1 A\nend gcs 1 violations 1\n"
NONE_VIOLATED = "gc 1 live 4 traced 4 freed 0\nend gcs 1 violations 0\n"
VIEW = (
    "A must be dead and is reached (collection 1; keeps 1 object, 10 bytes alive alone)\n    root r -> 1 A\n"
    "1 violations in 1 groups; 1 collections\n"
)
TOO_LARGE = "fault line 1: TooManySlots\n"


@unittest.skipIf(os.name != "posix", "the programs in place of gcaudit and gcheap are scripts of a shell")
class Large(Commands):
    """A script in gcheap's place notes its arguments, and prints a report that the test chooses."""

    def setUp(self):
        super().setUp()
        self.script("gcaudit", "echo gcaudit ran >&2; exit 3")
        self.gcheap(OF_ONE, 1)
        places = {name.upper(): self.path(name) for name in ("gcaudit", "gcheap")}
        patched = mock.patch.dict(os.environ, places)
        patched.start()
        self.addCleanup(patched.stop)

    def script(self, name, *lines):
        with open(self.path(name), "w") as file:
            file.write("\n".join(["#!/bin/sh", *lines, ""]))
        os.chmod(self.path(name), 0o755)
        return self.path(name)

    def gcheap(self, report, status):
        with open(self.path("report"), "w") as file:
            file.write(report)
        words, told = self.path("words"), self.path("report")
        self.script("gcheap", 'echo "$*" >> %s' % words, "cat > /dev/null", "cat %s" % told, "exit %d" % status)

    def words(self):
        """The arguments with which gcheap ran so far, a line for each run."""
        with open(self.path("words")) as file:
            return file.read()

    def test_a_view(self):
        self.assertEqual(self.said("view", self.write(*ONE), "--large", "--workers", "2", status=1), VIEW)
        self.assertEqual(self.words(), "--workers 2 --paths 10000\n")

    def test_named_slots(self):
        self.assertEqual(self.said("named", self.write(*ONE), "--large", status=1), OF_ONE)
        self.assertEqual(self.words(), "\n")

    def test_a_fleet(self):
        names = [self.write(*ONE, name=name) for name in ("h1", "h2")]
        said = self.said("fleet", *names, "--large", "--jobs", "2", status=1)
        self.assertIn("1 group of violations; 2 heaps: 2 with violations", said)
        self.assertEqual(self.words(), "--paths 10000\n" * 2)

    def write_dump(self):
        with open(self.path("dump"), "wb") as file:
            file.write(written_hprof("I", ["kept/A", "out/B", "kept/D"]))
        return self.path("dump")

    def test_a_fleet_of_dumps(self):
        self.gcheap(NONE_VIOLATED, 0)
        said = self.said("fleet", self.write_dump(), "--large", "--limit", "kept.A=1", "--only", "kept.")
        self.assertIn("1 heap: 0 with violations, 1 without", said)
        self.assertEqual(self.words(), "--paths 10000\n")

    def ask(self, *words):
        """What the command that asks a JVM says, where jcmd writes the dump above."""
        jcmd = self.script("jcmd", 'cp %s "$3"' % self.write_dump())
        done = subprocess.run(
            [sys.executable, "-B", "-m", "hprof_to_trace.service", "1", "--jcmd", jcmd, *words],
            stdout=subprocess.PIPE,
            stderr=subprocess.PIPE,
            env=dict(os.environ, PYTHONPATH=RECORDERS),
            cwd=self.folder,
        )
        return done.returncode, done.stdout.decode(), done.stderr.decode()

    def test_a_running_jvm(self):
        self.gcheap(NONE_VIOLATED, 0)
        status, said, told = self.ask("--large", "--limit", "kept.A=1", "--only", "kept.")
        self.assertEqual(status, 0, told)
        self.assertTrue(said.endswith("0 violations in 0 groups; 1 collections\n"), said)
        self.assertEqual(self.words(), "--paths 10000\n")

    def test_growth_needs_no_gcheap(self):
        status, _, told = self.ask("--growth", "2", "--large")
        self.assertEqual((status, told), (2, "gcaudit-jvm: --growth takes no --large\n"))
        self.assertFalse(os.path.exists(self.path("words")))

    def test_a_refusal_says_who_takes_more(self):
        self.script("gcaudit", "cat > /dev/null; printf '%s'; exit 2" % TOO_LARGE)
        trace = self.write(*ONE)
        for words, advice in (([], "; --large audits larger heaps"), (["--large"], "")):
            self.gcheap(TOO_LARGE, 2)
            done = self.run_module("view", trace, *words)
            want = "gcaudit-view: gcaudit did not read %s to its end (status 2): fault line 1: TooManySlots%s\n"
            self.assertEqual((done.returncode, done.stderr.decode()), (2, want % (trace, advice)))

    def test_where_gcheap_is(self):
        self.assertEqual(find_program(None, True), self.path("gcheap"))
        self.assertEqual(find_program(self.path("gcaudit"), True), self.path("gcaudit"))
        with mock.patch.dict(os.environ, PATH=self.folder):
            del os.environ["GCHEAP"]
            self.assertEqual(find_program(None, True), self.path("gcheap"))
            os.environ["PATH"] = "/nowhere"
            self.assertEqual(find_program(None, True), os.path.join(os.path.dirname(RECORDERS), "gcheap"))
            os.environ["GCHEAP"] = "/no/such/program"
            self.assertRaisesRegex(TraceError, "^there is no program /no/such/program$", find_program, None, True)


@unittest.skipIf(PROGRAM is None or LARGE is None, "gcaudit or gcheap is not built")
class LargeByTheProgram(Commands):
    def test_the_same_view(self):
        trace = self.write(*LEAK, *DEAD, COLLECT)
        usual = self.said("view", trace, "--gcaudit", PROGRAM, status=1)
        self.assertEqual(self.said("view", trace, "--large", "--gcaudit", LARGE, status=1), usual)

    def test_more_slots_than_gcaudit_takes(self):
        with open(self.path("large.jsonl"), "w") as file:
            file.write(json.dumps({"op": "alloc", "id": 1, "type": "A", "slots": 16777217}) + "\n")
        done = self.run_module("view", self.path("large.jsonl"), "--gcaudit", PROGRAM)
        self.assertEqual(done.returncode, 2)
        self.assertTrue(done.stderr.decode().endswith("fault line 1: TooManySlots; --large audits larger heaps\n"))


if __name__ == "__main__":
    unittest.main()

"""--snapshot: the bytes that are written, what is refused, and the verdicts of gcaudit on the trace that gcsnap makes of them."""
import hashlib
import json
import os
import re
import subprocess
import sys
import unittest
from unittest import mock

from tests.support import PROGRAM, PROGRAMS, RECORDERS, SNAPSHOTS, InFolder, needs_commands, needs_snapshots
from tests.test_dumps import dump_java, run, written_hprof, written_snapshot

from gcaudit_trace import audit
from gcaudit_trace.commands.summary import main as summary
from gcaudit_trace.traces import limits, snapshot_writer
from heapsnapshot_to_trace.__main__ import main as heapsnapshot_to_trace
from hprof_to_trace.__main__ import main as hprof_to_trace

LONG = "long" * 75
CHAIN = ["kept/A", "out/B", "out/C", "kept/D"]
# The classes are objects too, and roots, since their loader is that of the JVM. What is left out between the third and the fourth is passed over; the fourth holds itself.
OF_CHAIN = (
    "heapsnap 1\nobject 1 0 class kept.A\nobject 2 0 class kept.D\nobject 3 1 kept.A\nslot 0 4\nobject 4 1 kept.D\nslot 0 4\n"
    "root 1 class kept.A\nroot 2 class kept.D\nroot 3 unknown root\nend\n"
)
# The second slot of the first object is weak, so it is empty.
OF_SNAPSHOT = (
    'heapsnap 1\nobject 1 2 A\\"]\nslot 0 2\nobject 2 1 %s~%s\nslot 0 3\nobject 3 0 é\u2028\U0001f600\\x0a\nroot 1 A\\"]\nend\n'
    % (LONG[:247], hashlib.sha256(LONG.encode()).hexdigest()[:8])
)

# What is said of a heap of three objects where there is room for two, and of one for which there is room in gcheap.
OBJECTS_KEPT = "3 objects would be kept, and %s takes 2; leave some out by --only or --without"
ADVICE = "; --large writes a trace for gcaudit --large, which takes more"


class Snapshots(InFolder):
    def write_dump(self, convert):
        """A dump for the converter, written by hand, and the words for it."""
        of_v8 = written_snapshot()
        of_v8["strings"][2] = LONG
        with open(self.path("dump"), "wb") as file:
            file.write(written_hprof("I", CHAIN) if convert is hprof_to_trace else json.dumps(of_v8).encode())
        return ["--only", "kept."] if convert is hprof_to_trace else []

    def snapshot_of(self, convert, dump, *words):
        """The bytes of the snapshot of a dump."""
        status, said = run(convert, dump, self.path("heap.snapshot"), "--snapshot", *words)
        self.assertEqual(status, 0, said)
        with open(self.path("heap.snapshot"), "rb") as file:
            return file.read()

    def trace_of(self, snapshot):
        """The lines of the trace that gcsnap makes of a snapshot."""
        done = subprocess.run([SNAPSHOTS, "to-trace"], input=snapshot, stdout=subprocess.PIPE)
        self.assertEqual(done.returncode, 0, done.stdout[:200])
        return done.stdout.decode().split("\n")[:-1]

    def audited(self, lines):
        with open(self.path("audited.jsonl"), "w") as file:
            file.write("".join(line + "\n" for line in lines))
        return audit(self.path("audited.jsonl"), PROGRAM)


class Texts(Snapshots):
    def test_bytes(self):
        for convert, want in ((hprof_to_trace, OF_CHAIN), (heapsnapshot_to_trace, OF_SNAPSHOT)):
            words = self.write_dump(convert)
            self.assertEqual(self.snapshot_of(convert, self.path("dump"), *words).decode(), want)

    def test_roots_by_the_bytes_of_their_names(self):
        found = []
        snapshot = snapshot_writer.SnapshotWriter(found.append)
        snapshot.object("A", [])
        snapshot.object("B", [("", 2, False), ("", 0, False), ("", 1, True), ("", 1, False)])
        snapshot.finish([("\U0001f600", 1), ("z", 2), ("Z", 1), ("\uffee", 2), ("z z", 1), ("é", 2)])
        self.assertEqual(
            "".join(found),
            "heapsnap 1\nobject 1 0 A\nobject 2 4 B\nslot 0 2\nslot 3 1\n"
            "root 1 Z\nroot 2 z\nroot 1 z z\nroot 2 é\nroot 2 \uffee\nroot 1 \U0001f600\nend\n",
        )

    def test_limits_are_those_of_a_trace(self):
        """What is refused as a trace is refused as a snapshot, by the same sentence, with the same status, and no file is left."""
        for name, most, why in (
            ("MOST_TYPES", 2, "the %s would have more than 2 types, which gcaudit doesn't take"),
            ("MOST_OBJECTS", 2, OBJECTS_KEPT % "gcaudit"),
            ("MOST_SLOTS", 2, "the %s would have more than 2 live slots, which gcaudit doesn't take"),
            ("MOST_ROOTS", 0, "the %s would have more than 0 roots, which gcaudit doesn't take"),
        ):
            for words, kind in (([], "trace"), (["--snapshot"], "snapshot")):
                self.write_dump(heapsnapshot_to_trace)
                with mock.patch.object(limits, name, most):
                    status, said = run(heapsnapshot_to_trace, self.path("dump"), self.path("none"), *words)
                self.assertEqual((status, os.listdir(self.folder)), (2, ["dump"]))
                advice = "" if name == "MOST_TYPES" or words else ADVICE
                want = "heapsnapshot_to_trace: " + why.replace("%s", kind) + advice
                self.assertEqual(said.split(". Most are of: ")[0].rstrip("\n"), want)

    def test_a_large_trace(self):
        """With --large a trace has what gcheap takes, and no more."""
        for name, large, most, why in (
            ("MOST_OBJECTS", "LARGE_OBJECTS", 3, OBJECTS_KEPT % "gcheap"),
            ("MOST_SLOTS", "LARGE_SLOTS", 3, "the trace would have more than 2 live slots, which gcheap doesn't take"),
            ("MOST_ROOTS", "LARGE_ROOTS", 1, "the trace would have more than 0 roots, which gcheap doesn't take"),
        ):
            self.write_dump(heapsnapshot_to_trace)
            self.assertEqual(run(heapsnapshot_to_trace, self.path("dump"), self.path("usual"))[0], 0)
            with mock.patch.object(limits, name, most - 1):
                self.assertEqual(run(heapsnapshot_to_trace, self.path("dump"), self.path("large"), "--large")[0], 0)
                with mock.patch.object(limits, large, most):
                    self.assertEqual(run(heapsnapshot_to_trace, self.path("dump"), self.path("large"), "--large")[0], 0)
                with mock.patch.object(limits, large, most - 1):
                    status, said = run(heapsnapshot_to_trace, self.path("dump"), self.path("none"), "--large")
            self.assertEqual(status, 2)
            self.assertEqual(said.split(". Most are of: ")[0].rstrip("\n"), "heapsnapshot_to_trace: " + why)
            with open(self.path("usual")) as usual, open(self.path("large")) as file:
                self.assertEqual(usual.read(), file.read())
            for made in ("usual", "large"):
                os.unlink(self.path(made))
            self.assertEqual(os.listdir(self.folder), ["dump"])

    def test_each_reader_of_dumps_says_who_takes_more(self):
        """Where a class or two can be left out, the classes with most objects are named too."""
        for convert in (hprof_to_trace, heapsnapshot_to_trace):
            words = self.write_dump(convert)
            with mock.patch.object(limits, "MOST_OBJECTS", 0):
                status, said = run(convert, self.path("dump"), self.path("none"), *words)
                self.assertEqual(status, 2)
                self.assertIn(" takes 0; leave some out by --only or --without%s. Most are of: " % ADVICE, said)
                self.assertEqual(run(convert, self.path("dump"), self.path("large"), "--large", *words)[0], 0)
            os.unlink(self.path("large"))

    def test_a_snapshot_is_never_large(self):
        for convert in (hprof_to_trace, heapsnapshot_to_trace):
            words = self.write_dump(convert)
            status, said = run(convert, self.path("dump"), self.path("none"), "--snapshot", "--large", *words)
            self.assertEqual((status, os.listdir(self.folder)), (2, ["dump"]))
            self.assertRegex(said, r"^\w+: gcsnap takes no more than gcaudit; --large is for traces\n$")

    def test_the_limits_are_those_of_the_programs(self):
        """docs/TRACES.md has them too."""
        with open(os.path.join(os.path.dirname(RECORDERS), "docs", "TRACES.md"), encoding="utf-8") as page:
            rows = dict(re.findall(r"(?m)^\| ([a-z ]+) \| ([\d,]+ \| [\d,]+) \|$", page.read()))
        for what, usual, large in (
            ("live objects", limits.MOST_OBJECTS, limits.LARGE_OBJECTS),
            ("slots of all live objects", limits.MOST_SLOTS, limits.LARGE_SLOTS),
            ("roots at one time", limits.MOST_ROOTS, limits.LARGE_ROOTS),
        ):
            self.assertEqual(rows[what], "{:,} | {:,}".format(usual, large))

    def test_at_its_limits(self):
        for name, most in (
            ("MOST_TYPES", 3),
            ("MOST_OBJECTS", 3),
            ("MOST_SLOTS", 3),
            ("MOST_ROOTS", 1),
            ("LONGEST_SNAPSHOT", len(OF_SNAPSHOT.encode())),
        ):
            self.write_dump(heapsnapshot_to_trace)
            with mock.patch.object(limits, name, most):
                self.assertEqual(self.snapshot_of(heapsnapshot_to_trace, self.path("dump")).decode(), OF_SNAPSHOT)

    def test_one_byte_too_long(self):
        self.write_dump(heapsnapshot_to_trace)
        with mock.patch.object(limits, "LONGEST_SNAPSHOT", len(OF_SNAPSHOT.encode()) - 1):
            status, said = run(heapsnapshot_to_trace, self.path("dump"), self.path("none"), "--snapshot")
        self.assertEqual((status, os.listdir(self.folder)), (2, ["dump"]))
        self.assertEqual(
            said,
            "heapsnapshot_to_trace: the snapshot would have more than %d bytes, which gcsnap doesn't take\n"
            % (len(OF_SNAPSHOT.encode()) - 1),
        )
        self.assertEqual(limits.LONGEST_SNAPSHOT, 2**28)

    def test_assertions_are_refused(self):
        for words in (["--dead", "A"], ["--limit", "A=1"], ["--unshared", "A"], ["--owned-by", "A=B"]):
            for convert in (hprof_to_trace, heapsnapshot_to_trace):
                self.write_dump(convert)
                status, said = run(convert, self.path("dump"), self.path("none"), "--snapshot", *words)
                self.assertEqual((status, os.listdir(self.folder)), (2, ["dump"]))
                self.assertRegex(
                    said,
                    r"^\w+: a snapshot has no assertions; put them into the trace that gcsnap to-trace makes of it\n$",
                )

    def test_a_snapshot_is_no_trace(self):
        words = self.write_dump(hprof_to_trace)
        self.snapshot_of(hprof_to_trace, self.path("dump"), *words)
        status, said = run(summary, self.path("heap.snapshot"))
        self.assertEqual(
            (status, said),
            (
                2,
                "gcaudit-summary: %s is a snapshot for gcsnap: gcsnap to-trace makes a trace of it, "
                "and a collection belongs behind that\n" % self.path("heap.snapshot"),
            ),
        )

    def test_the_dump_is_not_replaced(self):
        self.write_dump(hprof_to_trace)
        status, said = run(hprof_to_trace, self.path("dump"), self.path("dump"), "--snapshot")
        self.assertEqual(
            (status, said), (2, "hprof_to_trace: the snapshot would replace the dump, %s\n" % self.path("dump"))
        )
        self.assertEqual(os.path.getsize(self.path("dump")), len(written_hprof("I", CHAIN)))


@needs_snapshots
class Audited(Snapshots):
    def test_names_of_types(self):
        """gcaudit-named takes a trace that gcsnap made: it has no labels, so the slots keep their numbers."""
        words = self.write_dump(hprof_to_trace)
        lines = self.trace_of(self.snapshot_of(hprof_to_trace, self.path("dump"), *words))
        with open(self.path("trace.jsonl"), "w") as file:
            file.write("\n".join(lines + ['{"op":"assert-dead","id":4}', '{"op":"collect"}']) + "\n")
        done = subprocess.run(
            [sys.executable, "-B", "-m", "gcaudit_trace", "--gcaudit", PROGRAM, self.path("trace.jsonl")],
            stdout=subprocess.PIPE,
            env=dict(os.environ, PYTHONPATH=RECORDERS),
        )
        self.assertEqual(
            (done.returncode, done.stdout.decode()),
            (
                1,
                "gc 1 live 4 traced 4 freed 0\ngc 1 dead 4 kept.D: root unknown root -> 3 kept.A [slot 0] -> 4 kept.D\n"
                "end gcs 1 violations 1\n",
            ),
        )

    def test_odd_names(self):
        """Names as the format has them: with spaces at each end, cut, with escapes, of other letters."""
        for names in ([" a b ", "x" * 300, "é" * 128, "bad\x01\x7f\nname"], ["", "\u2028", "[Lpart/of;", "\ud800half"]):
            with open(self.path("dump"), "wb") as file:
                file.write(written_hprof("Q", names))
            kinds = {
                json.loads(line)["type"]
                for line in self.trace_of(self.snapshot_of(hprof_to_trace, self.path("dump")))
                if '"op":"alloc"' in line
            }
            status, said = run(hprof_to_trace, self.path("dump"), self.path("trace.jsonl"))
            self.assertEqual(status, 0, said)
            with open(self.path("trace.jsonl"), encoding="utf-8") as file:
                self.assertEqual(kinds, {event["type"] for event in map(json.loads, file) if event["op"] == "alloc"})

    def same_verdicts(self, convert, dump, names, *words):
        """The report of the trace that is written and that of the snapshot's trace, with the same assertions. Both are the same to the byte."""
        status, said = run(convert, dump, self.path("trace.jsonl"), *words)
        self.assertEqual(status, 0, said)
        with open(self.path("trace.jsonl"), encoding="utf-8") as file:
            written = file.read().split("\n")[:-1]
        made = self.trace_of(self.snapshot_of(convert, dump, *words))
        ids = {}
        for line in made:
            event = json.loads(line)
            if event["op"] == "alloc":
                ids.setdefault(event["type"], []).append(event["id"])
        asserted = [{"op": "assert-dead", "id": one} for one in ids[names["Ended"]]] + [
            {"op": "assert-instances", "type": names["Config"], "limit": 1}
        ]
        asserted += [{"op": "assert-unshared", "id": one} for one in ids[names["Node"]]]
        asserted += [
            {"op": "assert-ownedby", "owner": ids[names["Box"]][0], "ownee": one} for one in ids[names["Item"]]
        ]
        asserted = list(map(json.dumps, asserted))
        self.assertEqual(written[-1], '{"op":"collect"}')
        of_trace = self.audited(written[:-1] + asserted + written[-1:])
        of_snapshot = self.audited(made + asserted + written[-1:])
        self.assertEqual((of_snapshot.status, of_snapshot.report), (of_trace.status, of_trace.report))
        return of_trace.verdicts

    @needs_commands("java", "javac", "jcmd")
    def test_a_jvm(self):
        subprocess.run(
            ["javac", "-d", self.folder, os.path.join(PROGRAMS, "SessionLeak.java")], check=True, timeout=300
        )
        names = {
            name: "SessionLeak$" + full
            for name, full in dict(Ended="EndedSession", Config="Config", Node="Node", Box="Box", Item="Item").items()
        }
        dump = dump_java(self.folder, "leak", "leak")
        for words in ((), ("--only", "SessionLeak", "--only", "java.util.")):
            self.assertEqual(
                {verdict.kind for verdict in self.same_verdicts(hprof_to_trace, dump, names, *words)},
                {"dead", "instances", "unshared", "ownedby"},
            )

    @needs_commands("node")
    def test_node(self):
        names = dict(Ended="EndedSession", Config="Config", Node="TreeNode", Box="Box", Item="Item")
        dump = self.path("leak.heapsnapshot")
        subprocess.run(
            ["node", os.path.join(PROGRAMS, "session_leak.js"), "leak", dump],
            check=True,
            timeout=300,
            stdout=subprocess.PIPE,
        )
        only = [word for name in list(names.values()) + ["EventBus", "Listener"] for word in ("--only", name)]
        # (an object leads to its class and that to all of the program: beside --snapshot these edges stay, so the box may own every item)
        self.assertLessEqual(
            {"dead", "instances", "unshared"},
            {verdict.kind for verdict in self.same_verdicts(heapsnapshot_to_trace, dump, names, *only)},
        )


if __name__ == "__main__":
    unittest.main()

"""Dumps of real programs: each leak is found with its path, the twin without it passes; bad dumps are refused in a sentence."""
import contextlib
import gzip
import io
import json
import os
import random
import re
import resource
import shutil
import stat
import struct
import subprocess
import sys
import tempfile
import unittest
from unittest import mock

from tests.support import PROGRAM, PROGRAMS, RECORDERS, SNAPSHOTS, InFolder, events, needs_commands, needs_program

from gcaudit_trace import audit
from gcaudit_trace.progress import Progress
from gcaudit_trace.traces import limits
from heapsnapshot_to_trace.__main__ import main as heapsnapshot_to_trace
from hprof_to_trace.__main__ import main as hprof_to_trace
from hprof_to_trace.convert import Heap


def run(command, *words):
    """The status of a command, and what it said on standard error."""
    said = io.StringIO()
    with contextlib.redirect_stderr(said):
        try:
            status = command(list(words))
        except SystemExit as end:
            status = end.code
    return status, said.getvalue()


def dump_java(folder, name, *words, main="SessionLeak", all_objects=False):
    """Runs a program in a JVM of its own, and dumps its heap: the live objects, or garbage too."""
    dump = os.path.join(folder, name + ".hprof")
    process = subprocess.Popen(
        ["java", "-Xmx512m", "-XX:+UseSerialGC", "-cp", folder, main, *words],
        stdin=subprocess.PIPE,
        stdout=subprocess.PIPE,
    )
    try:
        if process.stdout.readline().strip() != b"ready":
            raise AssertionError("the program did not start")
        subprocess.run(
            ["jcmd", str(process.pid), "GC.heap_dump", *["-all"] * all_objects, dump],
            stdout=subprocess.PIPE,
            check=True,
            timeout=120,
        )
    finally:
        process.stdin.close()
        process.wait(timeout=120)
        process.stdout.close()
    return dump


class DumpTests:
    """What both readers of dumps are held to; the classes below say of which dumps."""

    @classmethod
    def setUpClass(cls):
        cls.dumps = tempfile.mkdtemp(prefix="gcaudit-test-")
        cls.addClassCleanup(shutil.rmtree, cls.dumps, ignore_errors=True)
        cls.leak, cls.clean = cls.make_dumps()

    def assertions(self):
        named = self.names
        return [
            "--dead",
            named["Ended"],
            "--limit",
            named["Config"] + "=1",
            "--unshared",
            named["Node"],
            "--owned-by",
            "%s=%s" % (named["Box"], named["Item"]),
        ]

    def trace_of(self, dump, *words):
        trace = self.path("trace.jsonl")
        status, said = run(type(self).convert, dump, trace, *words)
        self.assertEqual(status, 0, said)
        return trace, said

    @needs_program
    def test_leaks_are_found(self):
        trace, said = self.trace_of(self.leak, *self.assertions())
        done = audit(trace, PROGRAM)
        self.assertEqual(done.status, 1)
        self.assertRegex(done.named, self.path_of_session)
        self.assertRegex(done.named, r"instances %s limit 1 found 2: root .* \.second -> " % self.pattern("Config"))
        self.assertRegex(
            done.named, r"unshared \d+ %s refs 2: root .* \.left -> .* \| root .* \.right -> " % self.pattern("Node")
        )
        self.assertRegex(done.named, r"ownedby \d+ %s owner \d+: root " % self.pattern("Item"))
        self.assertIn("violations 4", done.report)
        self.assertRegex(said, r"left out: \d+ objects \(")

    @needs_program
    def test_the_twin_passes(self):
        trace, said = self.trace_of(self.clean, *self.assertions())
        self.assertEqual(audit(trace, PROGRAM).status, 0)
        self.assertIn("no object of the class %s is in the dump" % self.names["Ended"], said)

    @needs_program
    def test_leaks_are_found_through_what_is_left_out(self):
        only = [word for name in self.names.values() for word in ("--only", name)]
        for dump, violations in ((self.leak, 4), (self.clean, 0)):
            trace, said = self.trace_of(dump, *self.assertions(), *only)
            self.assertIn("end gcs 1 violations %d" % violations, audit(trace, PROGRAM).report)
            self.assertRegex(said, r'joints in the trace, as "left out CLASS": \d+, which stand for \d+ of them; ')

    def test_all_is_in_the_trace(self):
        trace, said = self.trace_of(self.clean)
        found = events(trace)
        self.assertTrue(any(e["op"] == "set-weak" for e in found))
        self.assertGreater(len([e for e in found if e["op"] == "root"]), 3)
        self.assertIn("%d objects" % len([e for e in found if e["op"] == "alloc"]), said)

    def test_a_cut_dump_is_refused(self):
        with open(self.leak, "rb") as file:
            whole = file.read()
        for length in [0, 1, 10, 25, 30, 1000, len(whole) // 3, len(whole) * 2 // 3, len(whole) - 3]:
            cut = self.path("cut")
            with open(cut, "wb") as file:
                file.write(whole[:length])
            self.refused([cut, self.path("none.jsonl")])
            self.assertEqual(os.listdir(self.folder), ["cut"])

    def test_what_is_no_dump_is_refused(self):
        for text in (
            b"",
            b"hello",
            b"\0" * 1000,
            b"JAVA PROFILE 1.0.9\0" + bytes(100),
            b"{}",
            b"[1]",
            b'{"snapshot":{}}',
            os.urandom(5000),
            b'{"snapshot":{"meta":{"node_fields":["x"]}},"nodes":[1],"edges":[],"strings":[]}',
            b'{"nodes":[1,2]',
            b"JAVA PROFILE 1.0.2\0" + bytes(12),
        ):
            with open(self.path("dump"), "wb") as file:
                file.write(text)
            self.refused([self.path("dump"), self.path("none.jsonl")])
        self.refused([self.path("no such dump"), self.path("none.jsonl")])
        self.refused([self.folder, self.path("none.jsonl")])
        self.refused([self.leak, self.path("no/such/folder.jsonl")])
        self.refused([self.leak, self.path("n" * 300)])
        self.refused([self.leak, self.folder])
        self.refused([self.leak, "/dev/null"])
        self.refused([self.path("dump"), self.path("dump")])
        self.assertEqual(os.listdir(self.folder), ["dump"])
        self.assertTrue(stat.S_ISCHR(os.stat("/dev/null").st_mode))

    def test_a_full_disk(self):
        def limit():
            resource.setrlimit(resource.RLIMIT_FSIZE, (100000, 100000))

        for name, words in (("none.jsonl", []), ("é" * 120, []), ("none.snapshot", ["--snapshot"])):
            done = subprocess.run(
                [sys.executable, "-B", "-m", type(self).convert.__module__, self.leak, self.path(name), *words],
                stderr=subprocess.PIPE,
                env=dict(os.environ, PYTHONPATH=RECORDERS),
                preexec_fn=limit,
            )
            self.assertEqual((done.returncode, os.listdir(self.folder)), (2, []))
            self.assertRegex(
                done.stderr.decode(), r"^(\w+: [^\n]+\n)*\w+: %s can't be written: File too large\n$" % self.path(name)
            )

    def test_a_link_stays(self):
        os.mkdir(self.path("elsewhere"))
        os.symlink(os.path.join("elsewhere", "real.jsonl"), self.path("trace.jsonl"))
        self.trace_of(self.clean)
        self.assertEqual(sorted(os.listdir(self.folder)), ["elsewhere", "trace.jsonl"])
        self.assertTrue(os.path.islink(self.path("trace.jsonl")))
        self.assertEqual(os.listdir(self.path("elsewhere")), ["real.jsonl"])

    def test_wrong_words_are_refused(self):
        for words in (
            ["--limit", "A"],
            ["--limit", "A=x"],
            ["--owned-by", "A"],
            ["--dead", "A", "--only", "B"],
            ["--owned-by", "%s=%s" % (self.names["Node"], self.names["Item"])],
        ):
            self.refused([self.leak, self.path("none.jsonl"), *words])
        self.assertEqual(os.listdir(self.folder), [])

    def test_a_class_that_the_dump_lacks(self):
        for name in self.lacking:
            status, said = run(type(self).convert, self.leak, self.path("none.jsonl"), "--dead", name)
            self.assertEqual((status, os.listdir(self.folder)), (2, []))
            self.assertRegex(
                said, r"^\w+: the dump has no class %s, but .*%s" % (re.escape(name), self.pattern("Ended"))
            )
        status, said = run(type(self).convert, self.leak, self.path("none.jsonl"), "--limit", "NoSuchThingAtAll=1")
        self.assertRegex(said, r"^\w+: the dump has no class NoSuchThingAtAll and none with a name like it\n$")
        self.trace_of(self.leak, "--may-be-missing", "--dead", self.lacking[0])

    def test_a_dump_packed_by_gzip(self):
        with open(self.clean, "rb") as plain, gzip.open(self.path("dump.gz"), "wb", 1) as packed:
            shutil.copyfileobj(plain, packed)
        trace, _ = self.trace_of(self.path("dump.gz"), *self.assertions())
        of_packed = events(trace)
        trace, _ = self.trace_of(self.clean, *self.assertions())
        self.assertEqual(events(trace), of_packed)
        os.truncate(self.path("dump.gz"), os.path.getsize(self.path("dump.gz")) // 2)
        os.unlink(trace)
        self.refused([self.path("dump.gz"), trace])
        self.assertEqual(os.listdir(self.folder), ["dump.gz"])

    def test_an_old_trace_stays_where_the_dump_is_bad(self):
        with open(self.path("trace.jsonl"), "w") as file:
            file.write("old")
        self.refused([self.folder, self.path("trace.jsonl")])
        with open(self.path("trace.jsonl")) as file:
            self.assertEqual(file.read(), "old")

    def refused(self, words):
        status, said = run(type(self).convert, *words)
        self.assertEqual(status, 2, said)
        self.assertRegex(said, r"^(\w+: [^\n]+\n)+$")

    def pattern(self, name):
        return self.names[name].replace("$", r"\$")


@needs_commands("java", "javac", "jcmd")
class Java(DumpTests, InFolder):
    convert = staticmethod(hprof_to_trace)
    names = {
        name: "SessionLeak$" + full
        for name, full in dict(
            Ended="EndedSession",
            Config="Config",
            Node="Node",
            Box="Box",
            Item="Item",
            Bus="EventBus",
            Listener="Listener",
        ).items()
    }
    lacking = ("SessionLeak.EndedSession", "EndedSession", "endedsession", "SessionLeak$EndedSesion")
    path_of_session = (
        r"dead \d+ SessionLeak\$EndedSession: root .* class SessionLeak \.BUS -> \d+ SessionLeak\$EventBus \.listeners -> "
        r"\d+ java\.util\.ArrayList \.elementData -> \d+ java\.lang\.Object\[\] \[0\] -> \d+ SessionLeak\$Listener \.session -> "
    )

    @classmethod
    def make_dumps(cls):
        subprocess.run(["javac", "-d", cls.dumps, os.path.join(PROGRAMS, "SessionLeak.java")], check=True, timeout=300)
        return dump_java(cls.dumps, "leak", "leak"), dump_java(cls.dumps, "clean", "clean")

    def test_statics_roots_and_weak_references(self):
        trace, _ = self.trace_of(self.leak)
        found = events(trace)
        roots = [e["name"] for e in found if e["op"] == "root"]
        self.assertTrue(any(name.startswith("class java.lang.") for name in roots), roots[:20])
        self.assertTrue(any(re.match(r"frame SessionLeak\.main:\d+ \(thread main\)", name) for name in roots), roots)
        self.assertLessEqual(
            {
                "thread main",
                "thread Finalizer",
                "thread Signal Dispatcher",
                "thread d\u00e9p\u00f4t",
                "thread \u5009\u5eab",
            },
            set(roots),
        )
        trace, _ = self.trace_of(self.leak, "--only", "SessionLeak")
        self.assertIn("thread main", [e["name"] for e in events(trace) if e["op"] == "root"])
        ended = next(e["id"] for e in found if e["op"] == "alloc" and e["type"] == "SessionLeak$EndedSession")
        weak = {(e["at"], e["slot"]) for e in found if e["op"] == "set-weak" and e["weak"]}
        held = [(e["at"], e["slot"]) in weak for e in found if e["op"] == "store" and e["to"] == ended]
        self.assertEqual(sorted(held), [False, True, True])  # by the listener, by WeakReference and SoftReference

    @needs_program
    def test_100000_objects_and_the_limit(self):
        dump = dump_java(self.dumps, "many", "leak", "60000")
        trace, _ = self.trace_of(
            dump,
            "--dead",
            "SessionLeak$EndedSession",
            "--without",
            "java.lang.String",
            "--without",
            "java.lang.Integer",
        )
        done = audit(trace, PROGRAM)
        self.assertEqual(done.status, 1)
        self.assertGreater(int(done.report.split()[3]), 100000)
        os.unlink(dump)

    def test_more_objects_than_gcaudit_takes(self):
        self.addCleanup(setattr, limits, "MOST_OBJECTS", limits.MOST_OBJECTS)
        limits.MOST_OBJECTS = 1000
        status, said = run(hprof_to_trace, self.leak, self.path("none.jsonl"))
        self.assertEqual(status, 2)
        self.assertRegex(
            said,
            r"\d+ objects would be kept, and gcaudit takes 1000; leave some out by --only or --without; --large writes a trace "
            r"for gcaudit --large, which takes more\. Most are of: java\.lang\.String \d+",
        )
        self.assertEqual(run(hprof_to_trace, self.leak, self.path("large.jsonl"), "--large")[0], 0)


@needs_commands("node")
class Node(DumpTests, InFolder):
    convert = staticmethod(heapsnapshot_to_trace)
    names = dict(Ended="EndedSession", Config="Config", Node="TreeNode", Box="Box", Item="Item")
    lacking = ("endedsession", "EndedSesion", "shop.EndedSession")
    path_of_session = (
        r"dead \d+ EndedSession: root .* \.bus -> \d+ EventBus \.listeners -> \d+ Array \[0\] -> \d+ function listener "
        r"\(context\) -> \d+ system / Context \(variable session\) -> \d+ EndedSession"
    )

    @classmethod
    def make_dumps(cls):
        found = []
        for kind in ("leak", "clean"):
            found.append(os.path.join(cls.dumps, kind + ".heapsnapshot"))
            subprocess.run(
                ["node", os.path.join(PROGRAMS, "session_leak.js"), kind, found[-1]],
                check=True,
                timeout=300,
                stdout=subprocess.PIPE,
            )
        return found

    def test_a_weak_reference_is_a_weak_slot(self):
        trace, _ = self.trace_of(self.leak)
        found = events(trace)
        ended = next(e["id"] for e in found if e["op"] == "alloc" and e["type"] == "EndedSession")
        weak = {(e["at"], e["slot"]) for e in found if e["op"] == "set-weak"}
        self.assertTrue([e for e in found if e["op"] == "store" and e["to"] == ended and (e["at"], e["slot"]) in weak])


class ManyLeaks(InFolder):
    """Each way to hold an object too long is found, and no object that was let go."""

    def found(self, convert, dump, names, *more):
        words = [word for name in names for word in ("--dead", name)]
        status, said = run(convert, dump, self.path("trace.jsonl"), *words, *more)
        self.assertEqual(status, 0, said)
        self.done = audit(self.path("trace.jsonl"), PROGRAM)
        return sorted(verdict.type_name for verdict in self.done.verdicts)

    @needs_program
    @needs_commands("java", "javac", "jcmd")
    def test_twelve_on_a_jvm(self):
        with open(os.path.join(PROGRAMS, "Leaks.java")) as file:
            names = [
                "Leaks$" + name
                for name in re.findall(r"static class (\w+) extends (?:Held|OfInnerClass) ", file.read())
            ]
        leaked = [name for name in names if "Released" not in name]
        self.assertEqual((len(leaked), len(names)), (12, 24))
        subprocess.run(["javac", "-d", self.folder, os.path.join(PROGRAMS, "Leaks.java")], check=True, timeout=300)
        dump = dump_java(self.folder, "many", main="Leaks")
        self.assertEqual(self.found(hprof_to_trace, dump, names), sorted(leaked))
        for name, path in (
            ("InThreadLocal", r"\.threadLocals -> .* \.value -> "),
            ("InStaticField", r"class Leaks \.field -> "),
            ("OfInnerClass", r"\.this\$0 -> "),
            ("InWeakMapOfItself", r"class Leaks \.WEAK -> .* \.value -> \d+ java\.lang\.Object\[\] \[0\] -> "),
        ):
            self.assertRegex(self.done.named, r"dead \d+ Leaks\$%s: root .*%s\d+ Leaks\$%s\n" % (name, path, name))
        self.assertRegex(self.done.named, r"dead \d+ Leaks\$OnStack: root frame Leaks\.\S+ \(thread Thread-\d+\) -> ")

    @needs_program
    @needs_commands("java", "javac", "jcmd")
    def test_through_classes_on_a_jvm(self):
        """What a class holds that only an object of it, an array, its loader or the JVM itself keeps alive."""
        with open(os.path.join(PROGRAMS, "PluginLeaks.java")) as file:
            names = ["PluginLeaks$" + name for name in re.findall(r"static class (\w+) extends Held ", file.read())]
        leaked = [name for name in names if "Released" not in name]
        self.assertEqual((len(leaked), len(names)), (11, 22))
        subprocess.run(
            ["javac", "-Xlint:none", "-d", self.folder, os.path.join(PROGRAMS, "PluginLeaks.java")],
            check=True,
            timeout=300,
        )
        dump = dump_java(self.folder, "many", main="PluginLeaks")
        self.assertEqual(self.found(hprof_to_trace, dump, names), sorted(leaked))
        self.all_is_reached()
        kept = r"root class PluginLeaks -> \d+ class PluginLeaks \.KEPT -> \d+ java\.util\.ArrayList \.elementData -> \d+ java\.lang\.Object\[\] "
        plugin = r"class PluginLeaks\$Plugin \.sessions -> "
        for name, path in (
            ("OfInstance", r"\[0\] -> \d+ PluginLeaks\$Plugin <class> -> \d+ " + plugin),
            (
                "OfArray",
                r"\[1\] -> \d+ PluginLeaks\$Plugin\[\] <class> -> \d+ class PluginLeaks\$Plugin\[\] \(element class\) -> \d+ "
                + plugin,
            ),
            (
                "OfSubclass",
                r"\[2\] -> \d+ PluginLeaks\$SubPlugin <class> -> \d+ class PluginLeaks\$SubPlugin \(superclass\) -> \d+ "
                + plugin,
            ),
            ("OfLoader", r"\[3\] -> \d+ PluginLeaks\$Loader \(defined class\) -> \d+ " + plugin),
        ):
            self.assertRegex(self.done.named, r"dead \d+ PluginLeaks\$%s: %s%s" % (name, kept, path))
        for name in ("OfClassData", "OfListInClassData", "OfCircleInClassData"):
            self.assertRegex(self.done.named, r"dead \d+ PluginLeaks\$%s: root held by the JVM\b.* -> " % name)
        for words in (
            ["--only", "PluginLeaks$Of", "--only", "PluginLeaks$ReleasedOf"],
            ["--owned-by", "PluginLeaks$OfLoader=PluginLeaks$OfArray"],
        ):
            self.assertEqual(sorted(set(self.found(hprof_to_trace, dump, names, *words))), sorted(leaked), words)

    @needs_program
    @needs_commands("java", "javac", "jcmd")
    def test_twenty_one_more_on_a_jvm(self):
        with open(os.path.join(PROGRAMS, "MoreLeaks.java")) as file:
            found = re.findall(r"static class (\w+) extends (?:Held|Of\w+) ", file.read())
        names = ["MoreLeaks$" + name for name in found]
        leaked = [name for name in names if "Released" not in name]
        self.assertEqual((len(leaked), len(names)), (21, 42))
        words = ["javac", "-Xlint:none", "-nowarn", "-d", self.folder, os.path.join(PROGRAMS, "MoreLeaks.java")]
        if subprocess.run(words, stderr=subprocess.DEVNULL, timeout=300).returncode:
            self.skipTest("the compiler knows no records")
        dump = dump_java(self.folder, "many", main="MoreLeaks")
        self.assertEqual(self.found(hprof_to_trace, dump, names), sorted(leaked))
        due = r"dead \d+ MoreLeaks\$OfDueFinalizer: root .* java\.lang\.ref\.Finalizer \.referent -> "
        self.assertRegex(self.done.named, due)
        self.all_is_reached()

    def all_is_reached(self):
        """All objects of the trace of a live dump are reached, but for what is held weakly."""
        types, held, reached, work = {}, {}, set(), []
        for event in events(self.path("trace.jsonl")):
            if event["op"] == "alloc":
                types[event["id"]] = event["type"]
            elif event["op"] == "store":
                held.setdefault(event["at"], []).append(event["to"])
            elif event["op"] == "root":
                work.append(event["to"])
        while work:
            one = work.pop()
            if one not in reached:
                reached.add(one)
                work += held.get(one, ())
        self.assertEqual([types[number] for number in types if number not in reached], [])

    @needs_program
    @needs_commands("node")
    def test_fourteen_on_node(self):
        with open(os.path.join(PROGRAMS, "leaks.js")) as file:
            leaked = re.findall(
                r"'((?:Of|In)\w+)'", re.search(r"const NAMES = \[(.*?)\]", file.read(), re.DOTALL).group(1)
            )
        self.assertEqual(len(leaked), 14)
        subprocess.run(
            ["node", os.path.join(PROGRAMS, "leaks.js"), self.path("many.heapsnapshot")],
            check=True,
            timeout=300,
            stdout=subprocess.PIPE,
        )
        names = leaked + ["Released" + name for name in leaked]
        self.assertEqual(self.found(heapsnapshot_to_trace, self.path("many.heapsnapshot"), names), sorted(leaked))
        for name, inside in (("OfPromise", "PromiseReaction"), ("OfProxy", "JSProxy"), ("OfClosure", "Context")):
            self.assertRegex(self.done.named, r"dead \d+ %s: root .* system / %s [^>]*-> .*%s\n" % (name, inside, name))
        self.assertNotIn("hidden", {e["type"] for e in events(self.path("trace.jsonl")) if e["op"] == "alloc"})

    @needs_program
    @needs_commands("node")
    def test_twenty_six_more_on_node(self):
        program, dump = os.path.join(PROGRAMS, "more_leaks.js"), self.path("many.heapsnapshot")
        with open(program) as file:
            leaked = re.findall(r"'(Of\w+)'", re.search(r"const NAMES = \[(.*?)\]", file.read(), re.DOTALL).group(1))
        self.assertEqual(len(leaked), 26)
        subprocess.run(["node", program, dump], check=True, timeout=300, stdout=subprocess.PIPE)
        names = leaked + ["Released" + name for name in leaked]
        # With --only, an object may be left out whose prototype leads on; and where something is owned, no object leads to its class.
        only = ["--only", "Of", "--only", "ReleasedOf"]
        owned = ["--owned-by", "AbortController=OfGetter"]
        for words in ([], only, ["--without", "Object"], owned):
            self.assertEqual(sorted(set(self.found(heapsnapshot_to_trace, dump, names, *words))), sorted(leaked), words)

    @needs_program
    @needs_commands("java", "javac", "jcmd")
    def test_the_heap_of_a_compiler(self):
        """Left out are hundreds of thousands of objects that hold one another in circles: few joints stay."""
        subprocess.run(
            ["javac", "-d", self.folder, os.path.join(PROGRAMS, "HoldsCompiler.java")], check=True, timeout=300
        )
        dump = dump_java(self.folder, "compiler", "60", main="HoldsCompiler")
        status, said = run(
            hprof_to_trace,
            dump,
            self.path("trace.jsonl"),
            "--only",
            "HoldsCompiler$",
            "--dead",
            "HoldsCompiler$EndedBig",
        )
        self.assertEqual(status, 0, said)
        left_out = int(re.search(r"left out: (\d+) objects", said).group(1))
        joints, stand_for = map(int, re.search(r": (\d+), which stand for (\d+) of them", said).groups())
        self.assertGreater(left_out, 100000)
        self.assertLess(joints, 200)
        self.assertGreater(stand_for, 50000)
        done = audit(self.path("trace.jsonl"), PROGRAM)
        self.assertEqual([verdict.type_name for verdict in done.verdicts], ["HoldsCompiler$EndedBig"])


def written_hprof(id_code, names, control="\n"):
    """A dump as the format describes it: one root, a chain of objects of the classes named, and a circle at its end."""

    def one(number):
        return struct.pack(">" + id_code, number)

    def record(tag, body):
        return struct.pack(">BII", tag, 0, len(body)) + body

    out = b"JAVA PROFILE 1.0.2\0" + struct.pack(">IQ", struct.calcsize(">" + id_code), 0)
    out += record(1, one(1) + ("next" + control).encode())
    for at, name in enumerate(names):
        out += record(1, one(100 + at) + name.encode("utf-8", "surrogatepass"))
        out += record(2, struct.pack(">I", at + 1) + one(1000 + at) + struct.pack(">I", 0) + one(100 + at))
    heap = b""
    for at in range(len(names)):
        heap += (
            b"\x20"
            + one(1000 + at)
            + struct.pack(">I", 0)
            + one(0) * 6
            + struct.pack(">IHHH", 8, 0, 0, 1)
            + one(1)
            + b"\x02"
        )
    for at in range(len(names)):
        following = 2000 + (at + 1 if at + 1 < len(names) else at)
        data = one(following)
        heap += b"\x21" + one(2000 + at) + struct.pack(">I", 0) + one(1000 + at) + struct.pack(">I", len(data)) + data
    heap += b"\x23" + one(5000) + struct.pack(">IIB", 0, 3, 5) + bytes(6)
    heap += b"\xff" + one(2000)
    return out + record(0x1C, heap) + record(0x2C, b"")


def written_snapshot():
    """A snapshot of four nodes, with names that have all that a JSON text may have."""
    meta = {
        "node_fields": ["type", "name", "id", "self_size", "edge_count"],
        "node_types": [["hidden", "object", "synthetic"], "string"],
        "edge_fields": ["type", "name_or_index", "to_node"],
        "edge_types": [["element", "property", "weak"], "string_or_number", "node"],
    }
    return {
        "snapshot": {"meta": meta, "x": ']}"\\'},
        "nodes": [2, 0, 1, 0, 1, 1, 1, 3, 0, 2, 1, 2, 5, 0, 1, 1, 3, 7, 0, 0],
        "edges": [0, 7, 5, 1, 3, 10, 2, 4, 15, 1, 4, 15],
        "other": [{"a": "]"}, "}", 1.5, None],
        "strings": ["", 'A\\"]', "long" * 200, "é\u2028\U0001f600\n", "B"],
        "last": 5,
    }


class WrittenDumps(InFolder):
    """Dumps that no program made, for what programs seldom do."""

    def test_names_and_identifiers_of_both_sizes(self):
        names = ["a/" + "N" * 300, "a/" + "N" * 301, "bad\x01\x7f\nname", "é" * 300, ""]
        for code in "IQ":
            with open(self.path("dump"), "wb") as file:
                file.write(written_hprof(code, names))
            trace = self.path("trace.jsonl")
            status, said = run(hprof_to_trace, self.path("dump"), trace, "--dead", "a." + "N" * 301)
            self.assertEqual(status, 0, said)
            kinds = {e["type"] for e in events(trace) if e["op"] == "alloc"}
            self.assertEqual(len(kinds), 10)
            self.assertTrue(all(1 <= len(kind.encode()) <= 256 and kind.isprintable() for kind in kinds))
            if PROGRAM:
                done = audit(trace, PROGRAM)
                self.assertEqual(done.status, 1)
                self.assertIn(r".next\x0a -> ", done.named)

    def test_references_go_on_through_what_is_left_out(self):
        with open(self.path("dump"), "wb") as file:
            file.write(written_hprof("I", ["kept/A", "out/B", "out/C", "kept/D"]))
        trace = self.path("trace.jsonl")
        self.assertEqual(run(hprof_to_trace, self.path("dump"), trace, "--only", "kept.")[0], 0)
        stores = [(e["at"], e["to"], e["label"]) for e in events(trace) if e["op"] == "store"]
        first, last = (next(e["id"] for e in events(trace) if e.get("type") == name) for name in ("kept.A", "kept.D"))
        self.assertEqual(stores, [(first, last, ".next\n (over 2 left out)"), (last, last, ".next\n")])

    def test_the_elements_of_a_left_out_array(self):
        """Each element has its label, and the array is read a few times, and not once for each of them."""
        whole = written_hprof("I", ["kept/A", "[Lout/B;"])
        size = 300
        heap = (
            b"\x22" + struct.pack(">IIII", 6000, 0, size, 1001) + struct.pack(">%dI" % size, *range(7000, 7000 + size))
        )
        for at in range(size):
            heap += b"\x21" + struct.pack(">IIIII", 7000 + at, 0, 1000, 4, 0)
        heap += b"\xff" + struct.pack(">I", 6000)
        with open(self.path("dump"), "wb") as file:
            file.write(whole[:-9] + struct.pack(">BII", 0x1C, 0, len(heap)) + heap + whole[-9:])
        with mock.patch.object(Heap, "holdings", autospec=True, side_effect=Heap.holdings) as holdings:
            status, said = run(hprof_to_trace, self.path("dump"), self.path("trace.jsonl"), "--only", "kept.")
        self.assertEqual(status, 0, said)
        joint = next(e["id"] for e in events(self.path("trace.jsonl")) if e.get("type") == "left out out.B[]")
        labels = [e["label"] for e in events(self.path("trace.jsonl")) if e["op"] == "store" and e["at"] == joint]
        self.assertEqual(labels, ["[%d]" % at for at in range(size)])
        self.assertLess(holdings.call_count, size + 50)

    def test_a_record_that_is_not_known(self):
        whole = written_hprof("I", ["A"]).replace(b"\xff" + struct.pack(">I", 2000), b"\x99" + struct.pack(">I", 2000))
        with open(self.path("dump"), "wb") as file:
            file.write(whole)
        status, said = run(hprof_to_trace, self.path("dump"), self.path("none.jsonl"))
        self.assertEqual((status, os.listdir(self.folder)), (2, ["dump"]))
        self.assertIn("has a record in its heap that is not known (0x99 ", said)

    def test_damaged_hprof(self):
        def record(tag, body):
            return struct.pack(">BII", tag, 0, len(body)) + body

        whole = written_hprof("I", ["A", "B"])
        field = struct.pack(">IHHH", 8, 0, 0, 1) + struct.pack(">I", 1)
        for dump, why in (
            (whole.replace(field + b"\x02", field + b"\x63"), "is not known"),
            (whole.replace(b"\x21" + struct.pack(">I", 2000), b"\x21" + struct.pack(">I", 0)), "the identifier 0"),
            (
                whole.replace(
                    b"\x21" + struct.pack(">III", 2000, 0, 1000), b"\x21" + struct.pack(">III", 2000, 0, 999)
                ),
                "is not in it",
            ),
            (whole + record(1, b"\0\0"), "a record is too short"),
            (whole + record(2, b"\0\0"), "a record is too short"),
            (whole + record(4, b"\0\0"), "a record is too short"),
            (whole + record(5, struct.pack(">III", 1, 0, 0xFFFFFFFF)), "a record is too short"),
            (whole[:-9], "is cut: the end of its heap"),
            (whole[:-1], "is cut: its last record"),
        ):
            self.assertNotEqual(dump, whole)
            with open(self.path("dump"), "wb") as file:
                file.write(dump)
            status, said = run(hprof_to_trace, self.path("dump"), self.path("none.jsonl"))
            self.assertEqual((status, os.listdir(self.folder)), (2, ["dump"]), said)
            self.assertRegex(said.splitlines()[-1], "^hprof_to_trace: .*%s" % why)

    def test_an_object_that_is_there_twice(self):
        whole = written_hprof("I", ["A", "B"])
        first = b"\x21" + struct.pack(">IIIII", 2000, 0, 1000, 4, 2001)
        head, heap = whole.split(struct.pack(">BI", 0x1C, 0), 1)
        size = struct.unpack(">I", heap[:4])[0]
        twice = head + struct.pack(">BII", 0x1C, 0, size + len(first)) + heap[4:].replace(first, first + first)
        traces = []
        for dump in (whole, twice):
            with open(self.path("dump"), "wb") as file:
                file.write(dump)
            status, said = run(hprof_to_trace, self.path("dump"), self.path("trace.jsonl"))
            self.assertEqual(status, 0, said)
            traces.append(events(self.path("trace.jsonl")))
        self.assertEqual(len(twice), len(whole) + len(first))
        self.assertEqual(traces[0], traces[1])

    def test_snapshot_in_odd_pieces(self):
        from heapsnapshot_to_trace import reader

        self.addCleanup(setattr, reader, "PIECE", reader.PIECE)
        snapshot = written_snapshot()
        traces = set()
        for ascii_alone in (True, False):
            for indent in (None, 1):
                for piece in (1, 2, 3, 7, 1000):
                    reader.PIECE = piece
                    with open(self.path("dump"), "w", encoding="utf-8") as file:
                        json.dump(snapshot, file, ensure_ascii=ascii_alone, indent=indent)
                    trace = self.path("trace.jsonl")
                    status, said = run(heapsnapshot_to_trace, self.path("dump"), trace)
                    self.assertEqual(status, 0, said)
                    found = events(trace)
                    kinds = [e["type"] for e in found if e["op"] == "alloc"]
                    self.assertEqual((kinds[0], kinds[2]), ('A\\"]', "é\u2028\U0001f600\\x0a"))
                    self.assertEqual(len([e for e in found if e["op"] == "store"]), 3)
                    self.assertEqual([e["weak"] for e in found if e["op"] == "set-weak"], [True])
                    with open(trace, encoding="utf-8") as file:
                        traces.add(file.read())
        self.assertEqual(len(traces), 1)

    @needs_program
    def test_a_label_with_half_a_character(self):
        snapshot = written_snapshot()
        snapshot["strings"][3] = "half \ud800"
        snapshot["edges"][4] = 3
        with open(self.path("dump"), "w") as file:
            json.dump(snapshot, file)
        status, said = run(
            heapsnapshot_to_trace,
            self.path("dump"),
            self.path("trace.jsonl"),
            "--dead",
            "half \\ud800",
            "--may-be-missing",
        )
        self.assertEqual(status, 0, said)
        self.assertEqual(audit(self.path("trace.jsonl"), PROGRAM).status, 0)

    def test_long_names_in_a_snapshot(self):
        for letter in ("x", "é", "\U0001f600", '"'):
            for differ_at in (100, 399, 450, 3000):
                snapshot = written_snapshot()
                long = [letter * differ_at + end + letter * 2000 for end in ("a", "b")]
                snapshot["strings"][1], snapshot["strings"][3] = long
                with open(self.path("dump"), "w", encoding="utf-8") as file:
                    json.dump(snapshot, file)
                trace = self.path("trace.jsonl")
                self.assertEqual(run(heapsnapshot_to_trace, self.path("dump"), trace)[0], 0)
                kinds = [e["type"] for e in events(trace) if e["op"] == "alloc"]
                self.assertEqual(len({kinds[0], kinds[2]}), 2, long[0][:10])
                self.assertTrue(all(len(kind.encode()) <= 256 for kind in kinds))

    def test_damaged_snapshots(self):
        for change in (
            lambda s: s["edges"].pop(),
            lambda s: s["nodes"].append(1),
            lambda s: s["nodes"].__setitem__(0, 99),
            lambda s: s["nodes"].__setitem__(1, -1),
            lambda s: s["nodes"].__setitem__(4, "x"),
            lambda s: s["nodes"].__setitem__(4, 2),
            lambda s: s["edges"].__setitem__(0, 9),
            lambda s: s["edges"].__setitem__(2, 20),
            lambda s: s["edges"].__setitem__(2, 4),
            lambda s: s["edges"].__setitem__(2, -5),
            lambda s: s["edges"].__setitem__(0, 300),
            lambda s: s["nodes"].__setitem__(1, 1 << 40),
            lambda s: s["nodes"].__setitem__(1, 1.5),
            lambda s: s["nodes"].__setitem__(1, True),
            lambda s: s["nodes"].__setitem__(1, [1]),
            lambda s: s["snapshot"]["meta"].__setitem__("node_types", [["a"] * 300]),
            lambda s: s["snapshot"].__setitem__("meta", None),
            lambda s: s.update(strings=s.pop("strings"), edges=s.pop("edges")),
            lambda s: s.update(nodes=s.pop("nodes")),
            lambda s: s["snapshot"]["meta"]["node_fields"].remove("edge_count"),
            lambda s: s.pop("nodes"),
            lambda s: s.pop("strings"),
            lambda s: s.update(nodes={}),
            lambda s: s.update(strings=[1]),
        ):
            snapshot = written_snapshot()
            change(snapshot)
            with open(self.path("dump"), "w") as file:
                json.dump(snapshot, file)
            status, said = run(heapsnapshot_to_trace, self.path("dump"), self.path("none.jsonl"))
            self.assertEqual((status, os.listdir(self.folder)), (2, ["dump"]), said)

    def test_snapshots_that_are_no_json_of_v8(self):
        whole = json.dumps(written_snapshot())
        for text in (
            whole.replace('"other"', '"nodes"'),
            whole.replace('"other"', '"snapshot"'),
            '{"snapshot":' + "[" * 100000,
            whole.replace("1.5", "[" * 100000),
            whole.replace('"B"', '"\\x"'),
            whole.replace('"B"', '"\\u12"'),
            whole.replace('"B"', "B"),
        ):
            self.refused(text.encode())
        self.refused(whole.encode().replace(b'"B"', b'"\xff"'))

    def refused(self, dump):
        with open(self.path("dump"), "wb") as file:
            file.write(dump)
        status, said = run(heapsnapshot_to_trace, self.path("dump"), self.path("none.jsonl"))
        self.assertEqual((status, os.listdir(self.folder)), (2, ["dump"]), said)
        self.assertRegex(said, r"^heapsnapshot_to_trace: [^\n]+\n$")


class Damaged(InFolder):
    """1,000 damaged dumps: each is refused in a sentence with the status 2, or the trace is one that gcaudit takes, the snapshot one that gcsnap takes."""

    def damaged(self, whole, chance):
        """Some bytes changed, taken away, doubled or put in, or the end cut off."""
        made = bytearray(whole)
        for _ in range(chance.choice((1, 1, 1, 2, 5))):
            at, length = chance.randrange(len(made) + 1), chance.choice((1, 1, 2, 4, 8, 30))
            what = chance.randrange(6)
            if what == 0:
                made[at : at + length] = bytes(chance.randrange(256) for _ in range(length))
            elif what == 1:
                del made[at : at + length]
            elif what == 2:
                made[at:at] = made[at : at + length]
            elif what == 3:
                made[at : at + length] = chance.choice((b"\0", b"\xff", b"9", b"-", b"]", b'"', b"\\")) * length
            elif what == 4:
                del made[at:]
            else:
                made[at:at] = bytes(chance.randrange(256) for _ in range(length))
        return bytes(made)

    def test_1000(self):
        chance = random.Random(5)
        wholes = [
            (hprof_to_trace, written_hprof("I", ["kept/A", "out/B", "out/C", "kept/D"])),
            (hprof_to_trace, written_hprof("Q", ["A", "B" * 50, "java/lang/String"])),
            (heapsnapshot_to_trace, json.dumps(written_snapshot()).encode()),
            (heapsnapshot_to_trace, json.dumps(written_snapshot(), indent=1).encode()),
        ]
        taken = 0
        for number in range(1000):
            convert, whole = wholes[number % len(wholes)]
            with open(self.path("dump"), "wb") as file:
                file.write(self.damaged(whole, chance))
            words = chance.choice(
                (
                    [],
                    ["--without", "out."],
                    ["--only", "kept."],
                    ["--snapshot"],
                    ["--may-be-missing", "--dead", "A", "--unshared", "kept.D"],
                )
            )
            status, said = run(convert, self.path("dump"), self.path("trace.jsonl"), *words)
            self.assertIn(status, (0, 2), (number, said))
            self.assertRegex(said, r"^(\w+: [^\n]+\n)+$")
            self.assertEqual(os.path.exists(self.path("trace.jsonl")), status == 0)
            if status == 0:
                taken += 1
                if "--snapshot" in words:
                    self.is_a_snapshot(self.path("trace.jsonl"))
                elif PROGRAM:
                    self.assertIn(audit(self.path("trace.jsonl"), PROGRAM).status, (0, 1))
                os.unlink(self.path("trace.jsonl"))
        self.assertEqual(os.listdir(self.folder), ["dump"])
        self.assertTrue(100 < taken < 900, taken)

    def is_a_snapshot(self, path):
        if SNAPSHOTS:
            with open(path, "rb") as snapshot:
                self.assertEqual(
                    subprocess.run([SNAPSHOTS, "to-trace"], stdin=snapshot, stdout=subprocess.DEVNULL).returncode, 0
                )


class ProgressLines(unittest.TestCase):
    """A plain line a second, on a terminal alone."""

    def said(self, is_terminal):
        said, now = io.StringIO(), [100.0]
        said.isatty = lambda: is_terminal
        with contextlib.redirect_stderr(said), mock.patch("gcaudit_trace.progress.time.monotonic", lambda: now[0]):
            progress = Progress("reader")
            for seconds, done in ((0.5, 1), (0.5, 2), (0.9, 3), (0.1, 4), (5, 5)):
                now[0] += seconds
                progress.at("reading", done << 20, 7 << 20)
            now[0] += 1
            progress.following()
        return said.getvalue()

    def test_a_line_a_second(self):
        self.assertEqual(
            self.said(True),
            "reader: reading: 2 of 7 MB\nreader: reading: 4 of 7 MB\nreader: reading: 5 of 7 MB\n"
            "reader: following references through what is left out\n",
        )

    def test_none_where_it_is_no_terminal(self):
        self.assertEqual(self.said(False), "")


class Commands(unittest.TestCase):
    def test_help(self):
        for module in (
            "gcaudit_trace",
            *("gcaudit_trace.commands." + name for name in ("named", "summary", "growth", "view")),
            "hprof_to_trace",
            "heapsnapshot_to_trace",
        ):
            done = subprocess.run([sys.executable, "-m", module, "--help"], cwd=RECORDERS, stdout=subprocess.PIPE)
            self.assertEqual(done.returncode, 0)
            self.assertIn(b"usage: ", done.stdout)


if __name__ == "__main__":
    unittest.main()

"""Ruby: dumps are read, the library finds leaks with their paths, twins pass, and nothing is green by mistake."""
import json
import os
import re
import shutil
import subprocess
import sys
import unittest

from tests.support import PROGRAM, PROGRAMS, RECORDERS, InFolder, events, needs_commands, needs_program, ruby_with

RUBY = os.path.join(RECORDERS, "ruby")
SOURCES = os.path.join(PROGRAMS, "ruby")
LIMIT = 900  # seconds for a program; nothing in it waits by the clock, so a busy machine only takes longer
MANY_TWINS = 20  # so often the twins run: what a stack keeps by accident differs from time to time

# What the report says of each leak of service_leaks.rb: its type, and the end of its path.
LEAKS = {
    "constant": ("Customer", r'class Object ::CUSTOMERS -> \d+ Hash \["Bob"\]'),
    "class variable": ("Request", r"root class Router -> \d+ class Router @@last"),
    "global variable": ("Draft", r"root \$draft"),
    "thread variable": ("Tenant", r"\d+ Thread .* -> \d+ Hash \[:tenant\]"),
    "fiber local": ("Locale", r"\d+ Thread \[:locale\]"),
    "closure": ("Window", r"::ON_QUIT -> \d+ Array \[0\] -> \d+ Proc .* \(variable window\)"),
    "finalizer": ("Upload", r"root finalizers.* -> \d+ Proc .* \(variable upload\)"),
    "at_exit": ("Connection", r"root end_proc.* -> \d+ Proc .* \(variable connection\)"),
    "memoized method": ("Report", r"::REPORTS -> \d+ Hash \[true\] -> \d+ Reports @known -> \d+ Hash \[0\]"),
    "observer": ("Gauge", r"::TICKER -> \d+ Ticker @observer_peers -> \d+ Hash \(key\)"),
    "queue": ("Job", r"::JOBS -> \d+ Thread::Queue \(reference\) -> \d+ \(hidden array\) \[0\]"),
    "timer": ("Watch", r"\d+ Thread \(stack or local\)"),
    "method object": ("Session", r"::HANDLERS -> \d+ Hash \[:news\] -> \d+ Method \(receiver\)"),
    "singleton class": (
        "Plugin",
        r"::HOST -> \d+ Host \(class\) -> \d+ singleton class of an object of Host .*\(variable plugin\)",
    ),
    "fiber": ("Page", r"::FIBERS -> \d+ Array \[0\] -> \d+ Fiber \(stack or local\)"),
}


def run(*words, **named):
    done = subprocess.run(words, stdout=subprocess.PIPE, stderr=subprocess.STDOUT, text=True, timeout=LIMIT, **named)
    return done.returncode, done.stdout


def is_too_old():
    return shutil.which("ruby") is not None and run("ruby", "-e", "exit(RUBY_VERSION >= '3.1')")[0] != 0


@needs_program
@needs_commands("ruby")
@unittest.skipIf(is_too_old(), "ruby is older than 3.1")
class WithRuby(InFolder):
    def environment(self, **variables):
        given = dict(
            os.environ, GCAUDIT=PROGRAM, GCAUDIT_PYTHON=sys.executable, TMPDIR=self.folder, PYTHONPATH=RECORDERS
        )
        given.pop("RUBYOPT", None)
        given.update(variables)
        return given

    def ruby(self, *words, **variables):
        """Runs ruby with the library and with warnings."""
        environment = self.environment(**variables)
        environment.pop("PYTHONPATH")
        done = run("ruby", "-w", "-I", os.path.join(RUBY, "lib"), *words, env=environment, cwd=SOURCES)
        self.assertEqual([name for name in os.listdir(self.folder) if name.startswith("gcaudit-")], [])
        return done

    def command(self, module, *words):
        return run(sys.executable, "-B", "-m", module, *words, env=self.environment(), cwd=self.folder)


class Dumps(WithRuby):
    @classmethod
    def setUpClass(cls):
        super().setUpClass()
        cls.dumped = None

    def setUp(self):
        super().setUp()
        self.dump = self.path("heap.json")
        if type(self).dumped is None:
            self.assertEqual(run("ruby", os.path.join(SOURCES, "dumped.rb"), self.dump), (0, ""))
            with open(self.dump, "rb") as file:
                type(self).dumped = file.read()
        with open(self.dump, "wb") as file:
            file.write(type(self).dumped)

    def converted(self, *words, status=0):
        found, said = self.command("rubyheap_to_trace", self.dump, self.path("heap.jsonl"), *words)
        self.assertEqual(found, status, said)
        self.assertEqual(os.path.exists(self.path("heap.jsonl")), status == 0)
        return said

    def report(self, *words):
        self.converted(*words)
        return self.command("gcaudit_trace", self.path("heap.jsonl"))[1]

    def test_each_kind_of_assertion(self):
        said = self.report(
            "--dead", "EndedSession", "--limit", "Session=1", "--unshared", "Node", "--owned-by", "Box=Item"
        )
        for line in (
            r'gc 1 dead (\d+) EndedSession: root module Shop -> .* Hash \["bob"\] -> \1 EndedSession',
            r"gc 1 instances Session limit 1 found 2: root .*",
            r"gc 1 unshared \d+ Node refs 2: root .* \| root .*",
            r"end gcs 1 violations 3",
        ):
            self.assertRegex(said, "(?m)^%s$" % line)

    def test_a_plus_means_subclasses(self):
        self.assertRegex(self.report("--limit", "Session+=2"), r"instances Session\+ limit 2 found 3: ")
        self.assertRegex(self.report("--limit", "Session+=3"), r"end gcs 1 violations 0")

    def test_weak_references_hold_nothing(self):
        self.assertRegex(self.report("--dead", "WeaklyHeld"), r"end gcs 1 violations 0")

    def test_only_the_programs_own_objects(self):
        said = self.report("--only", "Shop", "--only", "EndedSession", "--dead", "EndedSession")
        self.assertRegex(said, r"dead (\d+) EndedSession: root module Shop -> \d+ module Shop .* -> \1 EndedSession")

    def test_a_snapshot_has_the_same_objects(self):
        self.converted("--dead", "EndedSession")
        in_trace = sum(event["op"] == "alloc" for event in events(self.path("heap.jsonl")))
        os.unlink(self.path("heap.jsonl"))
        said = self.converted("--snapshot")
        self.assertIn("%d objects and " % in_trace, said)

    def test_what_is_refused(self):
        for words, reason in (
            (["--dead", "EndedSesion"], "the dump has no class EndedSesion, but EndedSession"),
            (["--only", "Shpo"], "the dump has no class that begins with Shpo"),
            (["--limit", "Session"], "--limit needs CLASS=N, not Session"),
            (["--dead", "Session", "--without", "Session"], "it is left out by --only or --without"),
            (["--snapshot", "--dead", "Session"], "a snapshot has no assertions"),
        ):
            self.assertIn(reason, self.converted(*words, status=2))
        self.assertIn("no object of the class Nowhere", self.converted("--dead", "Nowhere", "--may-be-missing"))

    def test_a_trace_that_asserts_nothing_is_refused(self):
        self.assertIn("nothing is asserted in it", self.converted())
        status, said = self.command("gcaudit_trace", self.path("heap.jsonl"))
        self.assertEqual(status, 2)
        self.assertIn("asserts nothing, so nothing was checked", said)

    def test_files_that_are_no_dumps(self):
        whole = type(self).dumped
        for content, reason in (
            (whole[: len(whole) // 2], "is cut: its last line isn't whole"),
            (b'{"type":"ROOT"}\n{"address":7,"type":"OBJECT"}\n', "is no heap dump of Ruby"),
            (b'{"type":"ROOT"}\n[1]\n', "is no heap dump of Ruby"),
            (b'{"address":"0x8","type":"OBJECT","references":[null]}\n', "is no heap dump of Ruby"),
            (b"", "is no heap dump of Ruby"),
        ):
            with open(self.dump, "wb") as file:
                file.write(content)
            self.assertIn(reason, self.converted(status=2))

    def test_other_commands_read_dumps(self):
        status, said = self.command("gcaudit_trace.commands.summary", self.dump)
        self.assertEqual(status, 0, said)
        self.assertRegex(said, r"\A\d[\d,]* objects, ")
        os.rename(self.dump, self.path("other.json"))
        shutil.copy(self.path("other.json"), self.dump)
        status, said = self.command("gcaudit_trace.commands.growth", self.path("other.json"), self.dump)
        self.assertEqual((status, said), (0, "nothing grew\n"))


class Synthetic(InFolder):
    """Dumps that are written by hand, for what a real one has seldom."""

    def converted(self, records, *words):
        dump, trace = self.path("heap.json"), self.path("heap.jsonl")
        with open(dump, "w") as file:
            file.writelines(json.dumps(record) + "\n" for record in records)
        status, said = run(sys.executable, "-B", "-m", "rubyheap_to_trace", dump, trace, *words, cwd=RECORDERS)
        self.assertEqual(status, 0, said)
        return events(trace)

    @staticmethod
    def labels(found):
        types = {event["id"]: event["type"] for event in found if event["op"] == "alloc"}
        return [(types[event["at"]], event["label"], types[event["to"]]) for event in found if event["op"] == "store"]

    RECORDS = [
        {"type": "ROOT", "root": "vm", "references": ["0x8", "0x10", "0x18", "0x30", "0x38"]},
        {"address": "0x8", "type": "CLASS", "name": "Object", "references": ["0x20"]},
        {"address": "0x10", "type": "ARRAY", "class": "0x8", "length": 2, "references": ["0x28", "0x28"]},
        {"address": "0x18", "type": "ARRAY", "class": "0x8", "length": 3, "references": ["0x28", "0x28"]},
        {
            "address": "0x20",
            "type": "CLASS",
            "class": "0x8",
            "name": "Thing",
            "superclass": "0x8",
            "references": ["0x8"],
        },
        {"address": "0x28", "type": "OBJECT", "class": "0x20"},
        {"address": "0x30", "type": "HASH", "class": "0x8", "size": 1, "references": ["0x40", "0x28"]},
        {"address": "0x38", "type": "HASH", "class": "0x8", "size": 2, "references": ["0x28", "0x28"]},
        {"address": "0x40", "type": "STRING", "class": "0x8", "fstring": True, "value": "ada"},
    ]

    def test_indexes_and_keys_where_the_dump_tells_them(self):
        found = [label for _, label, held in self.labels(self.converted(self.RECORDS)) if held == "Thing"]
        self.assertEqual(
            sorted(found),
            sorted(["[0]", "[1]", "(element)", "(element)", '["ada"]', "(key or value)", "(key or value)"]),
        )

    def test_names_that_the_library_gives(self):
        records = self.RECORDS + [{"type": "NAMES", "of": "0x18", "names": ["0x28", "[0]", "0x28", "[2]"]}]
        found = [label for _, label, held in self.labels(self.converted(records)) if held == "Thing"]
        self.assertNotIn("(element)", found)
        self.assertEqual(found.count("[2]"), 1)

    def test_classes_that_constants_lead_to_are_roots(self):
        found = self.converted(self.RECORDS)
        roots = {event["name"] for event in found if event["op"] == "root"}
        self.assertLessEqual({"class Object", "class Thing", "vm"}, roots)
        self.assertEqual([held for _, _, held in self.labels(found) if held.startswith("class ")], [])

    def test_a_class_that_no_constant_leads_to_is_held_by_its_objects(self):
        records = [dict(record) for record in self.RECORDS]
        records[1]["references"] = []
        self.assertIn(("Thing", "(class)", "class Thing"), self.labels(self.converted(records)))

    def test_what_only_the_cache_of_a_constant_holds(self):
        cache = {"address": "0x48", "type": "IMEMO", "imemo_type": "constcache", "class": "0x28"}
        roots = dict(self.RECORDS[0], references=["0x48"])
        records = [roots] + self.RECORDS[1:] + [cache]
        held = ("(constant cache)", "(cached constant)", "Thing")
        self.assertIn(held, self.labels(self.converted(records)))
        records[1] = dict(self.RECORDS[1], references=["0x20", "0x28"])  # the constant is there
        self.assertNotIn(held, self.labels(self.converted(records)))


class Leaks(WithRuby):
    def test_leaks_and_their_twins(self):
        status, said = self.ruby("service_leaks.rb", str(MANY_TWINS))
        self.assertEqual((status, len(LEAKS)), (0, 15), said)
        twins, _, leaks = said.partition("gcaudit found a violation:\n")
        self.assertEqual(twins, "no violation %d\n" % MANY_TWINS)
        for kind, path in LEAKS.values():
            self.assertRegex(leaks, r"(?m)^gc 1 dead (\d+) %s: (?=root ).*(%s) -> \1 %s$" % (kind, path, kind))
        self.assertTrue(leaks.endswith("end gcs 1 violations 15\n"), leaks)


class Asserting(WithRuby):
    def test_each_kind_of_assertion(self):
        status, said = self.ruby("asserting.rb", "kinds")
        self.assertEqual(status, 0, said)
        for line in (
            r"gc 1 instances Config limit 1 found 2: root .* ::LEFT -> \d+ Array \[0\] -> \d+ Config",
            r"gc 1 unshared \d+ Node refs 2: root .* \| root .*",
            r"gc 1 ownedby \d+ Item owner \d+: root .* ::RECENT -> .*",
            r"gc 1 ownedby \d+ Orphan owner \d+: root .*",
            r"end gcs 1 violations 4",
        ):
            self.assertRegex(said, "(?m)^%s$" % line)
        self.assertTrue(said.endswith("\nclean\n"), said)

    def test_regions(self):
        status, said = self.ruby("asserting.rb", "regions")
        self.assertEqual(status, 0, said)
        self.assertRegex(said, r"^clean\ngc 1 live ")
        self.assertRegex(
            said, r"(?m)^gc 1 dead \d+ Entry: root .* \[\d\] -> \d+ Entry\n    and 2 more in the same way$"
        )
        self.assertRegex(said, r"(?m)^end gcs 1 violations 3$")

    def test_texts_and_classes_without_a_name(self):
        self.assertRegex(
            self.ruby("asserting.rb", "text")[1], r"(?m)^gc 1 dead (\d+) String: .*::LEFT -> .* -> \1 String$"
        )
        self.assertRegex(
            self.ruby("asserting.rb", "unnamed")[1],
            r"(?m)^gc 1 dead (\d+) \(subclass of Node\): .* -> \1 \(subclass of Node\)$",
        )

    def test_a_variable_of_a_method_that_runs_holds_its_object(self):
        self.assertRegex(
            self.ruby("asserting.rb", "inside")[1],
            r"(?m)^gc 1 dead (\d+) Node: .* \d+ (Thread|Fiber) \(stack or local\) -> \1 Node$",
        )

    def test_nothing_is_green_by_mistake(self):
        status, said = self.ruby("asserting.rb", "empty")
        self.assertEqual(status, 1)
        self.assertIn(
            "nothing was asserted, so this check would pass whatever the program does (GcAudit::HeapAuditError)", said
        )
        status, said = self.ruby("asserting.rb", "unchecked")
        self.assertEqual(
            (status, said), (1, "gcaudit: 2 assertions were never checked: call check of each GcAudit::Heap\n")
        )
        for variables, reason in (
            (
                {"GCAUDIT": "/no/such/program"},
                r"the heap could not be audited \(status 2\): .*there is no program /no/such/program",
            ),
            (
                {"GCAUDIT_PYTHON": "/no/such/python"},
                r"Python could not be run, which reads the dump: .*/no/such/python",
            ),
            (
                {"GCAUDIT": "/bin/true"},
                r"the heap could not be audited \(status 2\): .*gcaudit did not read .* to its end",
            ),
            ({"GCAUDIT_PYTHON": "/bin/true"}, r"the heap could not be audited \(status 0\): nothing was said"),
            ({"GCAUDIT_KEEP": "/dev/null/keep"}, r"no folder for the heap dump can be made"),
            (
                {"GCAUDIT_RECORDERS": "/no/such/folder"},
                r"the heap could not be audited \(status 1\): .*No module named",
            ),
        ):
            status, said = self.ruby("asserting.rb", "leak", **variables)
            self.assertRegex(said, r"(?s)%s.*\(GcAudit::HeapAuditError\)" % reason)
            self.assertEqual(status, 1)

    def test_the_dump_is_kept_where_a_variable_says_so(self):
        status, said = self.ruby("asserting.rb", "leak", GCAUDIT_KEEP=self.path("kept"))
        self.assertEqual(status, 0, said)
        place = os.path.join(self.path("kept"), os.listdir(self.path("kept"))[0])
        self.assertLessEqual({"heap.json", "heap.jsonl", "report.txt", "marks.jsonl"}, set(os.listdir(place)))

    def test_no_dump_where_all_is_well(self):
        self.assertEqual(self.ruby("asserting.rb", "well", GCAUDIT="/no", GCAUDIT_PYTHON="/no"), (0, "clean\n"))


@unittest.skipIf(ruby_with("minitest") is None, "minitest is not there")
class Minitest(WithRuby):
    def test_its_own_tests(self):
        status, said = self.ruby(os.path.join(RUBY, "test", "test_gcaudit.rb"))
        self.assertEqual(status, 0, said)
        self.assertRegex(said, r"(?m)^\d+ runs, \d+ assertions, 0 failures, 0 errors, 0 skips$")

    def test_a_test_that_leaks_fails_with_the_path(self):
        status, said = self.ruby("shop_test.rb")
        self.assertEqual(status, 0, said)
        self.assertIn("3 runs, 3 assertions, 0 failures, 0 errors", said)
        status, said = self.ruby("shop_test.rb", LEAKS="1")
        self.assertEqual(status, 1)
        self.assertIn("2 failures, 0 errors", said)
        found = re.findall(
            r"(?m)^gc 1 dead \d+ Session: root .* Bus @listeners -> \d+ Array \[\d\] -> \d+ Session$", said
        )
        self.assertEqual(len(found), 2, said)
        status, said = self.ruby("shop_test.rb", EMPTY="1")
        self.assertEqual(status, 1)
        self.assertIn("0 failures, 1 errors", said)
        self.assertIn("nothing was asserted", said)


@needs_commands("rspec")
class RSpec(WithRuby):
    def rspec(self, **variables):
        environment = self.environment(**variables)
        environment.pop("PYTHONPATH")
        return run("rspec", "-I", os.path.join(RUBY, "lib"), "shop_spec.rb", env=environment, cwd=SOURCES)

    def test_an_example_that_leaks_fails_with_the_path(self):
        status, said = self.rspec()
        self.assertEqual(status, 0, said)
        self.assertIn("2 examples, 0 failures", said)
        status, said = self.rspec(LEAKS="1")
        self.assertEqual(status, 1)
        self.assertIn("2 examples, 1 failure", said)
        self.assertRegex(said, r"gc 1 dead \d+ Session: root .* Bus @listeners -> \d+ Array \[0\] -> \d+ Session")
        status, said = self.rspec(EMPTY="1")
        self.assertEqual(status, 1)
        self.assertIn("nothing was asserted", said)


@needs_commands("gem")
class Package(WithRuby):
    def test_it_is_built_and_used(self):
        self.assertEqual(run(os.path.join(RUBY, "build"), self.path("built"))[0], 0)
        archive = os.path.join(self.path("built"), os.listdir(self.path("built"))[0])
        home = self.path("gems")
        status, said = run("gem", "install", "--local", "--no-document", "--install-dir", home, archive)
        self.assertEqual(status, 0, said)
        program = "require 'gcaudit'; LEFT = [Object.new]; GcAudit.audited { |heap| heap.assert_dead(LEFT[0]) }"
        environment = self.environment(GEM_HOME=home)
        environment.pop("PYTHONPATH")
        status, said = run("ruby", "-e", program, env=environment, cwd=self.folder)
        self.assertEqual(status, 1)
        self.assertRegex(
            said, r"gc 1 dead \d+ Object: root class Object -> \d+ class Object ::LEFT -> \d+ Array \[0\] -> "
        )


if __name__ == "__main__":
    unittest.main()

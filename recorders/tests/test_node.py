"""The library for Node: leaks are found with their paths, twins pass, and nothing is green by mistake."""
import glob
import os
import re
import shutil
import subprocess
import sys
import unittest
import xml.etree.ElementTree as ElementTree

from tests.support import PROGRAM, PROGRAMS, RECORDERS, InFolder, events, needs_commands, needs_program

NODE = os.path.join(RECORDERS, "node")
SOURCES = os.path.join(PROGRAMS, "node")
KINDS = 59

# What the report says of each leak of service_leaks.js: its type, and the end of its path.
LEAKS = {
    "emitter": ("Session", r"EventEmitter \._events -> \d+ Object \.news -> .* \(variable session\)"),
    "closure": ("Window", r"\(variable onQuit\) -> \d+ Array \[0\] -> .* \(variable window\)"),
    "timer": ("Watch", r"Timeout \._onTimeout -> .* \(variable watch\)"),
    "pending promise": (
        "Order",
        r"\(variable waiting\) -> .* Promise \(reactions_or_result\) -> .* \(variable order\)",
    ),
    "async local storage": ("RequestContext", r"Timeout \.<symbol kResourceStore>|Timeout .*"),
    "map": ("Customer", r"\(variable customers\) -> \d+ Map \(table\) -> \d+ array \(\d+\)"),
    "stream": ("Upload", r"\(variable streams\) -> .* PassThrough \._readableState -> .*"),
    "agent of http": ("Download", r"Agent \.requests -> .* ClientRequest .* \(variable download\)"),
    "cache": ("Page", r"\(variable caches\) -> \d+ Object \.true -> \d+ Cache \(table\) -> \d+ array \(\d+\)"),
    "state of a module": ("State", r"Module \.exports -> \d+ Object \.state -> \d+ Object \.last"),
    "weak map": (
        "Bindings",
        r"part of key \(Element @\d+\) -> value \(Bindings @\d+\) pair in WeakMap \(table @\d+\)\)",
    ),
    "worker message": ("Task", r"\(variable calls\) -> \d+ Map \(table\) -> \d+ array \(\d+\) -> \d+ Object \.task"),
}


def run(*words, **named):
    done = subprocess.run(words, stdout=subprocess.PIPE, stderr=subprocess.STDOUT, text=True, **named)
    return done.returncode, done.stdout


def node_version():
    """The first number of the version of node; 0 where there is none."""
    found = re.match(r"v(\d+)", run("node", "--version")[1]) if shutil.which("node") else None
    return int(found.group(1)) if found else 0


@needs_program
@needs_commands("node")
@unittest.skipIf(0 < node_version() < 18, "node is older than 18")
class WithPackage(InFolder):
    def node(self, *words, **variables):
        return self.run_with_package("node", *words, **variables)

    def run_with_package(self, *words, folder=SOURCES, **variables):
        """Runs a command with the package; a variable that is None isn't set."""
        given = dict(
            os.environ, GCAUDIT_PACKAGE=NODE, GCAUDIT=PROGRAM, GCAUDIT_PYTHON=sys.executable, TMPDIR=self.folder
        )
        given.update(variables)
        given.pop("PYTHONPATH", None)
        given.pop("NODE_TEST_CONTEXT", None)
        environment = {name: value for name, value in given.items() if value is not None}
        done = run(*words, env=environment, cwd=folder)
        left = [name for name in os.listdir(self.folder) if name.startswith("gcaudit-") and not name.endswith(".tgz")]
        self.assertEqual(left, [])  # the snapshot is deleted
        return done


class Leaks(WithPackage):
    def test_twelve_leaks_and_their_twins(self):
        status, said = self.node("service_leaks.js")
        self.assertEqual((status, len(LEAKS)), (0, 12), said)
        twins, _, leaks = said.partition("gcaudit found a violation:\n")
        self.assertEqual(twins, "no violation\nno violation\n")
        for kind, path in LEAKS.values():
            self.assertRegex(leaks, r"(?m)^gc 1 dead (\d+) %s: root .*(%s) -> \1 %s$" % (kind, path, kind))
        self.assertTrue(leaks.endswith("end gcs 1 violations 12\n"), leaks)

    def test_each_kind_of_holder_is_found_and_its_twin_passes(self):
        status, said = self.node("holders.js")
        self.assertEqual(status, 0, said)
        kinds = said.split("\n")[0].split(" ")[1:]
        self.assertEqual(len(kinds), KINDS)
        paths = dict(re.findall(r"(?m)^gc 1 dead \d+ Held_(\S+): (.*)$", said))
        self.assertEqual([kind for kind in kinds if kind not in paths], [])
        for kind, path in (
            ("private_field", r"Keeps \.#held -> "),
            ("value_of_a_weak_map", r"pair in WeakMap \(table @\d+\)\) -> "),
            ("async_function", r"Generator \(parameters_and_registers\) -> "),
            ("listener_of_the_process", r"process \._events -> .* \(variable held\) -> "),
            ("bound_this", r"\(bound_this\) -> "),
        ):
            self.assertRegex(paths[kind], path)
        self.assertTrue(said.endswith("all are gone\n"), said)


class LargeHeap(WithPackage):
    def test_more_objects_than_gcaudit_takes(self):
        """Some types are left out, and the session that an object of theirs holds is found."""
        status, said = self.node("large_heap.js")
        self.assertEqual(status, 0, said)
        self.assertRegex(
            said,
            r"(?m)^gc 1 dead (\d+) Session: root .* \d+ Array \[500000\] \.attached -> \1 Session$",
        )
        self.assertRegex(
            said,
            r"(?m)^the heap has more objects than gcaudit takes, 1048576, so those of Entry are left out; "
            r"references go on through them$",
        )
        self.assertTrue(said.endswith("\nclean\n"), said)


class Asserting(WithPackage):
    def test_each_kind_of_assertion(self):
        status, said = self.node("asserting.js", "kinds")
        self.assertEqual(status, 0, said)
        for line in (
            r"gc 1 instances Config limit 1 found 2: root .*",
            r"gc 1 unshared \d+ Node refs 2: root .* \| root .*",
            r"gc 1 ownedby \d+ Item owner \d+: root .*",
            r"gc 1 ownedby \d+ Orphan owner \d+: root .*",
            r"end gcs 1 violations 4",
        ):
            self.assertRegex(said, "(?m)^%s$" % line)
        self.assertTrue(said.endswith("\nclean\n"), said)

    def test_regions(self):
        status, said = self.node("asserting.js", "regions")
        self.assertEqual(status, 0, said)
        self.assertRegex(said, r"^clean\ngc 1 live ")
        self.assertRegex(
            said, r"(?m)^gc 1 dead \d+ Entry: root .* \[\d\] -> \d+ Entry\n    and 2 more in the same way$"
        )
        self.assertRegex(said, r"(?m)^end gcs 1 violations 3$")

    def test_nothing_is_green_by_mistake(self):
        status, said = self.node("asserting.js", "empty")
        self.assertEqual(status, 1)
        self.assertEqual(
            said, "HeapAuditError: nothing was asserted, so this check would pass whatever the program does\n"
        )
        status, said = self.node("asserting.js", "unchecked")
        self.assertEqual(
            (status, said), (1, "gcaudit: 2 assertions were never checked: await check() of each HeapAudit\n")
        )
        for variables, reason in (
            (
                {"GCAUDIT": "/no/such/program"},
                r"the heap could not be audited \(status 2\): .*there is no program /no/such/program",
            ),
            (
                {"GCAUDIT_PYTHON": "/no/such/python"},
                r"Python could not be run, which reads the snapshot: .*/no/such/python",
            ),
            (
                {"GCAUDIT": "/bin/true"},
                r"the heap could not be audited \(status 2\): .*gcaudit did not read .* to its end",
            ),
            ({"GCAUDIT_PYTHON": "/bin/true"}, r"the heap could not be audited \(status 0\): nothing was said"),
            ({"GCAUDIT_KEEP": "/dev/null/keep"}, r"no folder for the heap snapshot can be made"),
            (
                {"GCAUDIT_RECORDERS": "/no/such/folder"},
                r"the heap could not be audited \(status 1\): .*No module named",
            ),
        ):
            status, said = self.node("asserting.js", "leak", **variables)
            self.assertRegex(said, "^HeapAuditError: " + reason)
            self.assertEqual(status, 1)

    def test_the_snapshot_is_kept_where_a_variable_says_so(self):
        status, said = self.node("asserting.js", "leak", GCAUDIT_KEEP=self.path("kept"))
        self.assertEqual(status, 1)
        place = re.search(r"The snapshot, its trace and the report are in (\S+)", said).group(1)
        self.assertLessEqual({"heap.heapsnapshot", "heap.jsonl", "report.txt", "marks.jsonl"}, set(os.listdir(place)))

    def test_no_snapshot_where_all_is_well(self):
        self.assertEqual(self.node("asserting.js", "well", GCAUDIT="/no", GCAUDIT_PYTHON="/no"), (0, "clean\n"))


class Checks(WithPackage):
    """Several checks of one audit."""

    def checks(self, *words):
        """What the checks of a program say, and the operations of the last trace."""
        kept = self.path("kept")
        shutil.rmtree(kept, ignore_errors=True)
        status, said = self.node("checks.js", *words, GCAUDIT_KEEP=kept)
        self.assertEqual(status, 0, said)
        traces = sorted(glob.glob(os.path.join(kept, "*", "heap.jsonl")), key=os.path.getsize)
        return said.split("----\n")[:-1], events(traces[-1])

    def test_a_leak_of_the_second_check_and_its_twin(self):
        (first, second), trace = self.checks("late")
        self.assertEqual(first, "clean\n")
        self.assertRegex(second, r"(?m)^gc 2 unshared \d+ Node refs 2: root .* \| root ")
        self.assertRegex(second, r"(?m)^end gcs 2 violations 1$")
        self.assertEqual(sum(event["op"] == "collect" for event in trace), 2)
        self.assertEqual(self.checks("mended")[0], ["clean\n", "clean\n"])

    def test_an_object_keeps_its_id_until_it_is_gone(self):
        (first, second, third), trace = self.checks("gone")
        found = re.search(r"(?m)^gc 1 dead (\d+) Session: root .* \[0\] -> \1 Session$", first)
        self.assertIsNotNone(found, first)
        number = int(found.group(1))
        self.assertRegex(second, r"(?m)^gc 2 dead %d Session: root .*\[50\] -> %d " % (number, number))
        self.assertEqual(third, "clean\n")
        self.assertEqual(sum(event["op"] == "collect" for event in trace), 3)
        sessions = [event["id"] for event in trace if event["op"] == "alloc" and event["type"] == "Session"]
        self.assertEqual(sessions, [number])
        self.assertEqual([event["id"] for event in trace if event["op"] == "assert-dead"], [number])

    def test_an_owner_that_is_gone(self):
        (first, second, third), _ = self.checks("owner")
        self.assertEqual(first, "clean\n")
        owner = re.search(r"(?m)^gc 2 ownedby (\d+ Item owner \d+): root .*\.recent -> ", second)
        self.assertIsNotNone(owner, second)
        self.assertRegex(third, r"(?m)^gc 3 ownedby %s gone: root .*\.recent -> " % re.escape(owner.group(1)))

    def test_a_region_at_two_checks(self):
        (first, second), trace = self.checks("region")
        self.assertRegex(first, r"(?m)^gc 1 dead \d+ Entry: root ")
        self.assertEqual(second, "clean\n")
        self.assertEqual(sum(event["op"] == "collect" for event in trace), 2)

    def test_nothing_stays_of_an_audit_that_is_never_abandoned(self):
        self.assertEqual(self.node("checks.js", "open"), (0, "clean\n----\n"))  # which looks at what is left


class Runners(WithPackage):
    path_of_session = r"gc 1 dead \d+ Session: root .* Bus \.listeners -> \d+ Array \[0\] -> \d+ Session"

    @unittest.skipIf(0 < node_version() < 20, "node older than 20 writes no JUnit XML")
    def test_the_runner_of_node(self):
        self.assertEqual(self.report()[0], 0)
        status, failed, said = self.report(LEAKS="1")
        self.assertEqual((status, list(failed)), (1, ["the session is gone"]), said)
        self.assertRegex(failed["the session is gone"], self.path_of_session)
        status, failed, said = self.report(EMPTY="1")
        self.assertEqual((status, list(failed)), (1, ["the session is gone"]), said)
        self.assertIn("nothing was asserted", failed["the session is gone"])

    def report(self, **variables):
        """The status of node's own runner, the message of each failed test in its JUnit XML, and all that it said."""
        status, said = self.node("--test", "--test-reporter=junit", "shop.test.mjs", **variables)
        cases = list(ElementTree.fromstring(said).iter("testcase"))
        self.assertEqual(len(cases), 2, said)
        failures = {
            case.get("name"): "".join(
                text for one in case.iter("failure") for text in (one.get("message", ""), one.text or "")
            )
            for case in cases
        }
        return status, {name: text for name, text in failures.items() if text}, said

    @needs_commands("mocha")
    def test_mocha(self):
        words = [os.path.realpath(shutil.which("mocha")), "--timeout", "0", "shop.test.mjs"]
        modules = {"NODE_PATH": "/usr/share/nodejs"}  # where Debian's mocha has its parts
        if self.node(words[0], "--version", **modules)[0]:
            self.skipTest("mocha doesn't run with this node")
        self.assertEqual(self.node(*words, **modules)[0], 0)
        status, said = self.node(*words, LEAKS="1", **modules)
        self.assertEqual(status, 1)
        self.assertRegex(said, self.path_of_session)
        status, said = self.node(*words, "--reporter", "xunit", LEAKS="1", **modules)
        self.assertEqual(status, 1)
        cases = {case.get("name"): case.findtext("failure") for case in ElementTree.fromstring(said).iter("testcase")}
        self.assertEqual([name for name, failure in cases.items() if failure], ["the session is gone"], said)
        self.assertRegex(cases["the session is gone"], self.path_of_session)

    @needs_commands("jest")
    def test_jest(self):
        with open(self.path("package.json"), "w") as file:
            file.write("{}")
        shutil.copy(os.path.join(SOURCES, "shop.jest.js"), self.path("shop.test.js"))
        words = ["jest", "--ci", "--runInBand", "--watchman=false"]
        status, said = self.run_with_package(*words, folder=self.folder)
        self.assertEqual(status, 0, said)
        status, said = self.run_with_package(*words, folder=self.folder, LEAKS="1")
        self.assertEqual(status, 1, said)
        self.assertRegex(said, self.path_of_session)
        self.assertRegex(said, r"(?m)^Tests: +1 failed, 1 passed, 2 total$")


class Package(WithPackage):
    @needs_commands("tsc")
    def test_its_types(self):
        os.makedirs(self.path("node_modules"))
        os.symlink(NODE, self.path("node_modules/gcaudit"))
        shutil.copy(os.path.join(SOURCES, "shop.ts"), self.folder)
        words = ["--noEmit", "--strict", "--target", "es2022", "--lib", "es2022,dom"]
        for module in (["--module", "node16"], ["--module", "commonjs", "--moduleResolution", "node"]):
            status, said = run("tsc", *words, *module, "shop.ts", cwd=self.folder)
            self.assertEqual((status, said), (0, ""))

    def test_it_is_built_and_imported_both_ways(self):
        self.assertEqual(run(os.path.join(NODE, "build"), self.folder)[0], 0)
        modules = self.path("node_modules")
        os.mkdir(modules)
        archive = next(name for name in os.listdir(self.folder) if name.endswith(".tgz"))
        subprocess.run(["tar", "-xzf", self.path(archive), "-C", modules], check=True)
        os.rename(os.path.join(modules, "package"), os.path.join(modules, "gcaudit"))
        with open(self.path("both.mjs"), "w") as file:
            file.write(
                "import { createRequire } from 'node:module';\n"
                "import { HeapAudit, audited } from 'gcaudit';\n"
                "const required = createRequire(import.meta.url)('gcaudit');\n"
                "globalThis.left = [{}];\n"
                "if (required.HeapAudit !== HeapAudit) throw new Error('two packages');\n"
                "await audited((heap) => heap.assertDead(globalThis.left[0])).catch((error) => console.log(error.message));\n"
            )
        status, said = self.node(self.path("both.mjs"))
        self.assertEqual(status, 0, said)
        self.assertRegex(said, r"gc 1 dead \d+ Object: root global -> \d+ global \.left -> \d+ Array \[0\] -> ")


if __name__ == "__main__":
    unittest.main()

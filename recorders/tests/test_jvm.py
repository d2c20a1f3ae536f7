"""The library for Java: leaks are found with their paths, twins pass, and nothing is green by mistake."""
import functools
import glob
import os
import re
import shutil
import subprocess
import sys
import tempfile
import unittest
import xml.etree.ElementTree as ElementTree
import zipfile

from tests.support import JUNIT_JARS, PROGRAM, PROGRAMS, RECORDERS, InFolder, events, needs_commands, needs_program

JVM = os.path.join(RECORDERS, "jvm")
SOURCES = os.path.join(PROGRAMS, "jvm")
has_junit = all(map(os.path.exists, JUNIT_JARS))
has_compiler = shutil.which("cc") is not None
KINDS = 62
JAVA_8 = 52  # the version of its class files
MAVEN = "/usr/share/maven-repo/org/apache/maven/plugins/maven-jar-plugin"
LIMIT = 900  # seconds for a program; nothing in it waits by the clock, so a busy machine only takes longer

# What the report says of each leak of ServiceLeaks.java: its type, and the end of its path.
LEAKS = {
    "executor": ("Job", r"\.queue -> .*ScheduledFutureTask \.callable -> .*\$\$Lambda\S* \.arg\$1"),
    "thread local": ("RequestContext", r"\(thread worker\) -> .* \.threadLocals -> .*ThreadLocalMap\$Entry \.value"),
    "class loader": ("PluginLoader", r"class ServiceLeaks \.PLUGINS -> .* <class> -> \d+ class \S+ \(class loader\)"),
    "static map": (
        "Session",
        r"class ServiceLeaks \.SESSIONS -> \d+ java\.util\.HashMap \.table -> .*HashMap\$Node \.value",
    ),
    "inner class": ("Window", r"class ServiceLeaks \.ON_QUIT -> .* \d+ ServiceLeaks\$Window\$1 \.this\$0"),
    "listener": ("Cart", r"class ServiceLeaks \.BUS -> \d+ ServiceLeaks\$EventBus \.listeners -> .*\[0\]"),
    "weak hash map": ("Document", r"class ServiceLeaks \.INDEXES -> .* \.value -> \d+ ServiceLeaks\$Index \.of"),
    "finalizer": ("Connection", r"class ServiceLeaks \.POOL -> .*\[0\]"),
    "timer": ("Watch", r"(\(thread watches\)|java\.util\.TaskQueue \.queue).*"),
    "cache": ("Page", r"class ServiceLeaks \.CACHES -> .* ServiceLeaks\$Cache .*LinkedHashMap\$Entry \.value"),
    "jni global": ("Image", r"JNI global( #\d+)?"),
    "record field": (
        "Customer",
        r"class ServiceLeaks \.state -> .*State \.customer -> \d+ java\.util\.Optional \.value",
    ),
}


def run(*words, **named):
    done = subprocess.run(words, stdout=subprocess.PIPE, stderr=subprocess.STDOUT, text=True, timeout=LIMIT, **named)
    return done.returncode, done.stdout


def java_version():
    """The first number of the version of javac; 0 where there is none."""
    if shutil.which("javac") is None:
        return 0
    found = re.search(r"javac (?:1\.)?(\d+)", run("javac", "-version")[1])
    return int(found.group(1)) if found else 0


def need(done):
    if done[0]:
        raise AssertionError(done[1])


class Built:
    """The library, and all programs, built once."""

    def __init__(self):
        if java_version() < 16:
            raise unittest.SkipTest("the programs in Java need javac 16 or newer")
        folder = tempfile.mkdtemp(prefix="gcaudit-test-")
        unittest.addModuleCleanup(shutil.rmtree, folder, ignore_errors=True)
        need(run(os.path.join(JVM, "build"), folder))
        self.jar = glob.glob(os.path.join(folder, "gcaudit-*.jar"))[0]
        self.classes = os.path.join(folder, "classes")
        sources = glob.glob(os.path.join(SOURCES, "*.java"))
        sources += glob.glob(os.path.join(SOURCES, "junit", "*.java")) if has_junit else []
        path = os.pathsep.join([self.jar, *(JUNIT_JARS if has_junit else [])])
        need(run("javac", "-nowarn", "-cp", path, "-d", self.classes, *sources))
        self.references = native_library(folder)


@functools.lru_cache(maxsize=None)
def built():
    return Built()


@needs_program
@needs_commands("java", "javac", "jar")
class WithLibrary(InFolder):
    @classmethod
    def setUpClass(cls):
        cls.jar, cls.classes, cls.references = built().jar, built().classes, built().references

    def java(self, *words, path=(), properties=None):
        """Runs a program with the library. A property that is None isn't set."""
        given = {"gcaudit.program": PROGRAM, "gcaudit.python": sys.executable, **(properties or {})}
        settings = ["-D%s=%s" % one for one in given.items() if one[1] is not None]
        classes = os.pathsep.join([self.classes, self.jar, *path])
        environment = {name: value for name, value in os.environ.items() if name not in ("PYTHONPATH", "GCAUDIT")}
        settings.append("-Djava.io.tmpdir=" + self.path("temporary"))
        os.makedirs(self.path("temporary"), exist_ok=True)
        done = run("java", "-Xmx512m", "-XX:+UseSerialGC", *settings, "-cp", classes, *words, env=environment)
        left = [name for name in os.listdir(self.path("temporary")) if not name.endswith(".agent")]
        self.assertEqual(left, [])  # the dump is deleted
        return done


def native_library(folder):
    """The references of native code, built; None where there is no C compiler."""
    if not has_compiler:
        return None
    home = os.path.dirname(os.path.dirname(os.path.realpath(shutil.which("javac"))))
    include = os.path.join(home, "include")
    system = os.path.dirname(glob.glob(os.path.join(include, "*", "jni_md.h"))[0])
    library = os.path.join(folder, "libreferences.so")
    need(
        run(
            "cc",
            "-shared",
            "-fPIC",
            "-I",
            include,
            "-I",
            system,
            "-o",
            library,
            os.path.join(SOURCES, "global_references.c"),
        )
    )
    return library


class Leaks(WithLibrary):
    def test_twelve_leaks_and_their_twins(self):
        library = self.references
        names = [name for name in LEAKS if library or name != "jni global"]
        self.assertEqual(len(LEAKS), 12)
        status, said = self.java("ServiceLeaks", *names, properties={"jni": library})
        self.assertEqual(status, 0, said)
        twins, _, leaks = said.partition("gcaudit found a violation:\n")
        self.assertEqual(twins, "no violation\nno violation\n")
        for name in names:
            kind, path = LEAKS[name]
            self.assertRegex(
                leaks,
                r"(?m)^gc 1 dead (\d+) ServiceLeaks\$%s: root .*%s.* -> \1 ServiceLeaks\$%s$" % (kind, path, kind),
            )
        self.assertTrue(leaks.endswith("end gcs 1 violations %d\n" % len(names)), leaks)

    def test_each_kind_of_holder_is_found_and_its_twin_passes(self):
        library = self.references
        status, said = self.java("Holders", properties={"jni": library})
        self.assertEqual(status, 0, said)
        kinds = dict(re.findall(r"(?m)^kind (\S+) (\S+)$", said))
        self.assertEqual(len(kinds), KINDS if library else KINDS - 1)
        paths = dict(re.findall(r"(?m)^gc 1 dead \d+ (\S+): (.*)$", said))
        self.assertEqual([kind for kind, name in kinds.items() if name not in paths], [])
        for kind, path in (
            ("class_value", r"root held by the JVM -> .*ClassValue\$Entry \.value -> "),
            ("finalizer_that_waits", r"Finalizer \.referent -> \d+ Holders\$Finalized \.held -> "),
            ("frame", r"root frame Holders\.keepsInFrame:\d+ \(thread holder\)"),
            ("inherited_thread_local", r"\.inheritableThreadLocals -> "),
            ("value_of_a_weak_map", r"WeakHashMap\$Entry \.value -> \d+ Holders\$Plain \.held -> "),
        ):
            self.assertRegex(paths[kinds[kind]], path)
        self.assertTrue(said.endswith("all are gone\n"), said)


class LargeHeap(WithLibrary):
    def test_more_objects_than_gcaudit_takes(self):
        """Some classes are left out, and the session that an object of theirs holds is found."""
        status, said = self.java("LargeHeap")
        self.assertEqual(status, 0, said)
        self.assertRegex(
            said,
            r"(?m)^gc 1 dead (\d+) LargeHeap\$Session: root class LargeHeap -> .* class LargeHeap \.LOG "
            r".*\[500000\] \.attached -> \1 LargeHeap\$Session$",
        )
        self.assertRegex(
            said,
            r"(?m)^the heap has more objects than gcaudit takes, 1048576, so those of LargeHeap\$Entry are left out; "
            r"references go on through them$",
        )
        self.assertTrue(said.endswith("\nclean\n"), said)


class Asserting(WithLibrary):
    def test_each_kind_of_assertion(self):
        status, said = self.java("Asserting", "kinds")
        self.assertEqual(status, 0, said)
        for line in (
            r"gc 1 dead \d+ byte\[\]: root .* \.LEFT -> .*",
            r"gc 1 instances Asserting\$Config limit 1 found 2: root .*",
            r"gc 1 unshared \d+ Asserting\$Node refs 2: root .* \| root .*",
            r"gc 1 ownedby \d+ Asserting\$Item owner \d+: root .* \.RECENT -> .*",
            r"gc 1 ownedby \d+ Asserting\$Orphan owner \d+: root .* \.RECENT -> .*",
            r"end gcs 1 violations 5",
        ):
            self.assertRegex(said, "(?m)^%s$" % line)
        self.assertTrue(said.endswith("clean\n"), said)

    def test_nothing_is_green_by_mistake(self):
        status, said = self.java("Asserting", "empty")
        self.assertIn(
            "HeapAuditException: nothing was asserted, so this check would pass whatever the program does", said
        )
        self.assertEqual(status, 1)
        status, said = self.java("Asserting", "unchecked")
        self.assertEqual(
            (status, said), (1, "gcaudit: 2 assertions were never checked: close each HeapAudit, or call check()\n")
        )
        for properties, reason in (
            (
                {"gcaudit.program": "/no/such/program"},
                r"the heap could not be audited \(status 2\): .*there is no program /no/such/program",
            ),
            (
                {"gcaudit.python": "/no/such/python"},
                r"Python could not be run, which reads the heap dump: .*/no/such/python",
            ),
            (
                {"gcaudit.program": "/bin/true"},
                r"the heap could not be audited \(status 2\): .*gcaudit did not read .* to its end",
            ),
            ({"gcaudit.python": "/bin/true"}, r"the heap could not be audited \(status 0\): nothing was said"),
            ({"gcaudit.keep": "/dev/null/keep"}, r"no folder for the heap dump can be made"),
            (
                {"gcaudit.recorders": "/no/such/folder"},
                r"the heap could not be audited \(status 1\): .*No module named",
            ),
        ):
            status, said = self.java("Asserting", "leak", properties=properties)
            self.assertRegex(said, "HeapAuditException: " + reason)
            self.assertEqual(status, 1)

    def test_the_dump_is_kept_where_a_property_says_so(self):
        status, said = self.java("Asserting", "leak", properties={"gcaudit.keep": self.path("kept")})
        self.assertEqual(status, 1)
        place = re.search(r"The dump, its trace and the report are in (\S+)", said).group(1)
        self.assertLessEqual({"heap.hprof", "heap.jsonl", "report.txt", "marks.jsonl"}, set(os.listdir(place)))

    def test_no_dump_where_all_is_well(self):
        status, said = self.java("Asserting", "well", properties={"gcaudit.program": "/no", "gcaudit.python": "/no"})
        self.assertEqual((status, said), (0, "clean\n"))


class Checks(WithLibrary):
    """Several checks of one audit."""

    def checks(self, *words, **properties):
        """What the checks of a program say, and the operations of the last trace."""
        kept = self.path("kept")
        shutil.rmtree(kept, ignore_errors=True)
        status, said = self.java("Checks", *words, properties={"gcaudit.keep": kept, **properties})
        self.assertEqual(status, 0, said)
        traces = sorted(glob.glob(os.path.join(kept, "*", "heap.jsonl")), key=os.path.getsize)
        return said.split("----\n")[:-1], events(traces[-1])

    @unittest.skipUnless(has_compiler, "not there: cc")
    def test_a_leak_of_the_second_check_and_its_twin(self):
        (first, second), trace = self.checks("late")
        self.assertEqual(first, "clean\n")
        self.assertRegex(
            second, r"(?m)^gc 2 unshared (\d+) Checks\$Node refs 2: root .* class Checks \.LEFT .* \| root .*\.RECENT "
        )
        self.assertRegex(second, r"(?m)^end gcs 2 violations 1$")
        self.assertEqual(sum(event["op"] == "collect" for event in trace), 2)
        self.assertEqual(self.checks("mended")[0], ["clean\n", "clean\n"])

    @unittest.skipUnless(has_compiler, "not there: cc")
    def test_an_object_keeps_its_id_until_it_is_gone(self):
        (first, second, third), trace = self.checks("gone")
        found = re.search(r"(?m)^gc 1 dead (\d+) Checks\$Session: root .* \[0\] -> \1 Checks\$Session$", first)
        self.assertIsNotNone(found, first)
        number = int(found.group(1))
        self.assertRegex(
            second, r"(?m)^gc 2 dead %d Checks\$Session: root .*Object\[\] \[49\] -> %d " % (number, number)
        )
        self.assertEqual(third, "clean\n")
        self.assertEqual(sum(event["op"] == "collect" for event in trace), 3)
        sessions = [event["id"] for event in trace if event["op"] == "alloc" and event["type"] == "Checks$Session"]
        self.assertEqual(sessions, [number])
        self.assertEqual([e["id"] for e in trace if e["op"] == "assert-dead"], [number])

    @unittest.skipUnless(has_compiler, "not there: cc")
    def test_an_owner_that_is_gone(self):
        (first, second, third), _ = self.checks("owner")
        self.assertEqual(first, "clean\n")
        owner = re.search(r"(?m)^gc 2 ownedby (\d+ Checks\$Item owner \d+): root .*\.RECENT -> ", second)
        self.assertIsNotNone(owner, second)
        self.assertRegex(third, r"(?m)^gc 3 ownedby %s gone: root .*\.RECENT -> " % re.escape(owner.group(1)))

    def test_without_the_agent_each_check_has_a_trace(self):
        (first, second, third), trace = self.checks("gone", **{"gcaudit.agent": "/no/such/agent"})
        for said in (first, second):
            self.assertRegex(said, r"(?m)^gc 1 dead \d+ Checks\$Session: ")
        self.assertEqual(third, "clean\n")
        self.assertEqual(sum(event["op"] == "collect" for event in trace), 1)

    def test_nothing_stays_of_an_audit_that_is_never_closed(self):
        self.assertEqual(self.java("Checks", "open"), (0, "clean\n----\n"))  # which looks at what is left


@unittest.skipUnless(has_compiler, "not there: cc")
class Regions(WithLibrary):
    def test_regions(self):
        status, said = self.java("Regions")
        self.assertEqual(status, 0, said)
        first, second, third, fourth = said.split("----\n")
        self.assertEqual(first, "clean\n")
        self.assertRegex(second, r"(?m)^gc 1 dead \d+ Regions\$Entry: root .* class Regions \.LOG -> .*$")
        self.assertRegex(second, r"(?m)^    and 2 more in the same way$")
        self.assertRegex(third, r"(?m)^gc 1 dead \d+ Regions\$Outer: root ")
        self.assertNotIn("Entry", third)
        self.assertEqual(fourth, "clean\n")

    def test_a_region_that_leaves_many_objects(self):
        status, said = self.java("Regions", "many")
        self.assertEqual(status, 0, said)
        self.assertRegex(said, r"(?m)^    and 69999 more in the same way$")

    def test_without_the_agent(self):
        status, said = self.java("Regions", properties={"gcaudit.agent": "/no/such/agent"})
        self.assertEqual(status, 1)
        self.assertRegex(
            said, r"HeapAuditException: region\(\) needs the agent libgcaudit, which recorders/jvm/build makes"
        )


@unittest.skipUnless(has_junit, "JUnit 5 is not there (Debian's package junit5)")
class JUnit(WithLibrary):
    def console(self, **properties):
        reports = self.path("reports")
        words = ["--select-class", "ShopTest", "--reports-dir", reports, "--disable-banner", "--disable-ansi-colors"]
        status, said = self.java(
            "org.junit.platform.console.ConsoleLauncher", *words, path=JUNIT_JARS, properties=properties
        )
        cases = ElementTree.parse(os.path.join(reports, "TEST-junit-jupiter.xml")).getroot().iter("testcase")
        said_of = {
            case.get("name"): [one.get("message") for kind in ("failure", "error") for one in case.iter(kind)]
            for case in cases
        }
        return status, said, said_of

    def test_green_without_the_leak_and_red_with_it(self):
        status, said, cases = self.console()
        self.assertEqual((status, set(map(tuple, cases.values()))), (0, {()}), said)
        status, said, cases = self.console(leaks="true")
        path = (
            r"gc 1 dead \d+ ShopTest\$Session: root .* ShopTest\$Bus \.listeners -> .* \[0\] -> \d+ ShopTest\$Session"
        )
        self.assertEqual(status, 1)
        self.assertRegex(said, path)
        failed = {name: messages for name, messages in cases.items() if messages}
        self.assertEqual(list(failed), ["sessionIsGone(HeapAudit)"])
        self.assertRegex(failed["sessionIsGone(HeapAudit)"][0], path)

    def test_red_where_nothing_was_asserted(self):
        status, said, cases = self.console(empty="true")
        self.assertEqual(status, 1, said)
        for messages in cases.values():
            self.assertIn("nothing was asserted", messages[0])


def class_files(jar):
    """The version of each class in a jar."""
    with zipfile.ZipFile(jar) as packed:
        names = [name for name in packed.namelist() if name.endswith(".class")]
        return {name: packed.read(name)[7] for name in names if not name.endswith("package-info.class")}


class Jar(WithLibrary):
    def test_the_classes_are_for_java_8(self):
        versions = class_files(self.jar)
        self.assertIn("gcaudit/HeapAudit.class", versions)
        self.assertEqual(set(versions.values()), {JAVA_8})


@needs_commands("mvn", "cc")
@unittest.skipUnless(
    os.path.isdir(MAVEN), "Maven's plugins are not there (Debian's libmaven-jar-plugin-java and others)"
)
@unittest.skipUnless(has_junit, "JUnit 5 is not there (Debian's package junit5)")
class Maven(WithLibrary):
    def test_maven_builds_the_library_without_a_network(self):
        top = os.path.dirname(RECORDERS)
        for name in ("LICENCE.md", "recorders"):
            copy = shutil.copytree if os.path.isdir(os.path.join(top, name)) else shutil.copy
            copy(os.path.join(top, name), self.path(name))
        jvm = self.path(os.path.join("recorders", "jvm"))
        need(run(os.path.join(jvm, "build_resources"), os.path.join(jvm, "target", "resources")))
        words = ["-s", os.path.join(jvm, "debian-settings.xml"), "-f", os.path.join(jvm, "pom.xml")]
        words += ["-Dmaven.repo.local=" + self.path("repository")]
        need(run("mvn", "--batch-mode", "--offline", "-Daether.offline.protocols=file", *words, "package"))
        jar = glob.glob(os.path.join(jvm, "target", "gcaudit-*.jar"))[0]
        versions = class_files(jar)
        self.assertEqual(set(versions.values()), {JAVA_8})
        self.assertEqual(set(versions), set(class_files(self.jar)))
        self.jar = jar
        self.assertEqual(self.java("Regions", "few")[0], 0)  # with the agent
        self.assertRegex(self.java("Asserting", "leak")[1], r"gc 1 dead \d+ Asserting\$Node: ")


@needs_commands("jcmd")
class Service(WithLibrary):
    """The command that asks a JVM that runs, whose program has no library."""

    def setUp(self):
        super().setUp()
        words = ["java", "-Xmx256m", "-XX:+UseSerialGC", "-cp", self.classes, "Service"]
        self.service = subprocess.Popen(words, stdin=subprocess.PIPE, stdout=subprocess.PIPE)
        self.addCleanup(self.end)
        self.assertEqual(self.service.stdout.readline(), b"ready\n")

    def end(self):
        self.service.stdin.close()
        self.service.stdout.close()
        self.service.wait(timeout=LIMIT)

    def ask(self, *words, pid=None):
        command = [sys.executable, "-B", "-m", "hprof_to_trace.service", pid or str(self.service.pid), *words]
        return run(
            *command, cwd=self.folder, env=dict(os.environ, PYTHONPATH=RECORDERS, GCAUDIT=PROGRAM, TMPDIR=self.folder)
        )

    def test_a_service_is_audited_and_compared(self):
        words = ["--limit", "Service$Entry=1", "--only", "Service", "--html", "page.html"]
        status, said = self.ask(*words)
        self.assertEqual(status, 1, said)
        self.assertRegex(said, r"(?m)^Service\$Entry has more objects than its limit: \d+, and the limit is 1 ")
        self.assertRegex(said, r"(?m)class Service \.LOG .* -> \d+ Service\$Entry$")
        self.assertEqual(os.listdir(self.folder), ["page.html"])
        status, said = self.ask("--growth", "2", "--every", "0")
        self.assertEqual(status, 0, said)
        self.assertEqual(os.listdir(self.folder), ["page.html"])

    def test_what_cannot_be_asked(self):
        for words, pid, reason in (
            ([], None, "nothing is asserted, so this check would pass whatever the program holds"),
            (["--dead", "A", "--only", "B"], None, "something is asserted of A, and it is left out"),
            (["--growth", "1"], None, "--growth compares 2 heaps or more"),
            (["--growth", "2", "--dead", "A"], None, "--growth takes no --dead"),
            (["--dead", "A"], "999999999", "the JVM 999999999 wrote no dump: "),
            (
                ["--dead", "A", "--jcmd", "/no/such/jcmd"],
                None,
                "/no/such/jcmd could not be run: No such file or directory",
            ),
        ):
            status, said = self.ask(*words, pid=pid)
            self.assertEqual((status, os.listdir(self.folder)), (2, []), said)
            self.assertIn("gcaudit-jvm: " + reason, said)


if __name__ == "__main__":
    unittest.main()

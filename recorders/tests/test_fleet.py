"""gcaudit-fleet: many heaps of one program as one report, on processes of this machine and on the workers of a Dask cluster."""
import gzip
import json
import os
import signal
import subprocess
import sys
import time
import unittest
from xml.etree import ElementTree

from tests.support import PROGRAM, RECORDERS, InFolder, needs_program, python_with
from tests.test_dumps import written_hprof
from tests.test_view import COLLECT, Commands, alloc, store, trace_of

from gcaudit_trace.reports.fleet import Fleet, Part, Source, merged

DASK = python_with("distributed")
CACHE = {"op": "root", "name": "cache", "to": 1}
# Two kinds of leak: a session that is in a list, where the list has `before` others, and a buffer in a slot of the cache.
BUFFER = [alloc(900, "Buffer", 0, 1000), store(1, 1, 900, ".buffer"), {"op": "assert-dead", "id": 900}]


def sessions(count, before=0):
    made = []
    for at in range(count):
        number = 10 + before + at
        made += [
            alloc(number, "Session"),
            store(2, before + at, number, "[%d]" % (before + at)),
            {"op": "assert-dead", "id": number},
        ]
    return made


def heap(*leaks):
    """A heap with a cache that has a list; it always asserts something, which holds."""
    whole = [alloc(1, "Cache", 2), alloc(2, "list", 20), store(1, 0, 2, ".sessions"), CACHE]
    for leak in leaks:
        whole += leak
    return [*whole, {"op": "assert-instances", "type": "Cache", "limit": 1}, COLLECT]


@needs_program
class Fleets(Commands):
    def fleet(self, *words, status=1):
        return self.said("fleet", *words, "--gcaudit", PROGRAM, status=status)

    def heaps(self, **heaps):
        """Writes traces, and says their names."""
        for name, lines in heaps.items():
            self.write(*lines, name=name)
        return list(heaps)

    def test_groups_of_all_heaps(self):
        """Ids and indexes differ from heap to heap. What keeps most comes first, though fewer heaps have it."""
        names = self.heaps(
            h1=heap(), h2=heap(sessions(2)), h9=heap(sessions(1, before=4), BUFFER), h10=heap(sessions(1, before=1))
        )
        for jobs in ("1", "3"):
            self.assertEqual(
                self.fleet("--jobs", jobs, *names[::-1]).split("\n"),
                [
                    "Buffer must be dead and is reached (in 1 of 4 audited heaps; only in h9; keeps 1 object, 1,000 bytes alive alone in all)",
                    "    in h9: root cache -> 1 Cache .buffer -> 900 Buffer",
                    "Session must be dead and is reached (4 times in 3 of 4 audited heaps; since h2; "
                    "they keep 4 objects, 40 bytes alive alone in all)",
                    "    in h2: root cache -> 1 Cache .sessions -> 2 list [0] -> 10 Session",
                    "2 groups of violations; 4 heaps: 3 with violations, 1 without",
                    "",
                ],
            )

    def test_no_violation(self):
        said = self.fleet(*self.heaps(a=heap(), b=heap()), status=0)
        self.assertEqual(said, "0 groups of violations; 2 heaps: 0 with violations, 2 without\n")

    def test_what_could_not_be_audited_is_a_row(self):
        """Whatever is wrong with a heap, the others are audited. Without a violation the status is 2."""
        self.heaps(a=heap(), c=heap(), d=heap()[:-2] + [COLLECT])
        with open(self.path("b"), "wb") as file:
            file.write(b"JAVA PROFILE 1.0.2\0" + b"\0" * 3)
        with open(self.path("e"), "wb") as file:
            file.write(gzip.compress(trace_of(*heap()).encode())[:-9])
        rows = [
            "could not be audited: b is cut: its head is not whole",
            "could not be audited: d asserts nothing, so nothing was checked; --may-be-empty allows it",
            "could not be audited: e is packed by gzip and damaged: Compressed file ended before the end-of-stream marker was reached",
            "could not be audited: f can't be read: No such file or directory",
        ]
        self.assertEqual(
            self.fleet("a", "b", "c", "d", "e", "f", status=2).split("\n"),
            [
                *rows,
                "0 groups of violations; 6 heaps: 0 with violations, 2 without, 4 could not be audited",
                "",
            ],
        )
        self.assertEqual(
            self.fleet("a", "d", "--may-be-empty", status=0),
            "0 groups of violations; 2 heaps: 0 with violations, 2 without\n",
        )
        self.heaps(c=heap(sessions(1)))
        self.assertEqual(
            self.fleet("a", "b", "c", "d", "e", "f").split("\n"),
            [
                "Session must be dead and is reached (in 1 of 2 audited heaps; since c or earlier; "
                "keeps 1 object, 10 bytes alive alone in all)",
                "    in c: root cache -> 1 Cache .sessions -> 2 list [0] -> 10 Session",
                *rows,
                "1 group of violations; 6 heaps: 1 with violations, 1 without, 4 could not be audited",
                "",
            ],
        )

    def test_a_table_gives_the_order_and_the_labels(self):
        self.heaps(z=heap(sessions(1)), y=heap(sessions(1), BUFFER), x=heap(sessions(1)), w=heap(sessions(1)), v=heap())
        with open(self.path("table"), "w") as file:
            file.write("v\t1.0\nz\t1.1\ny\t1.1\n\n./x\t1.2\nw\t1.1\n")
        expected = [
            "Buffer must be dead and is reached (in 1 of 5 audited heaps; only in 1.1; keeps 1 object, 1,000 bytes alive alone in all)",
            "    in y: root cache -> 1 Cache .buffer -> 900 Buffer",
            "Session must be dead and is reached (4 times in 4 of 5 audited heaps; since 1.1; "
            "they keep 4 objects, 40 bytes alive alone in all)",
            "    in z: root cache -> 1 Cache .sessions -> 2 list [0] -> 10 Session",
            "2 groups of violations; 5 heaps: 4 with violations, 1 without",
            "",
        ]
        self.assertEqual(self.fleet("--table", "table", "--junit", "junit.xml").split("\n"), expected)
        self.assertEqual(
            self.fleet("--table", "table", "v", "w", "./x", "y", "z").replace("./x", "x").split("\n"), expected
        )
        cases = ElementTree.parse(self.path("junit.xml")).getroot()[0].findall("testcase")
        self.assertEqual(cases[1][0].text.split("\n")[-2:], ["1.1: 3 of 3 heaps", "1.2: 1 of 1 heap"])
        for words, why in (
            (["--table", "table", "u"], "table has no line for u"),
            (["v", "./v"], "v is named twice"),
            ([], "there is no heap to audit; name traces or dumps, or a table of them"),
            (["--table", "v"], "v has a line that isn't FILE, a tab and LABEL: "),
        ):
            done = self.run_module("fleet", *words, "--gcaudit", PROGRAM)
            self.assertEqual(done.returncode, 2)
            self.assertTrue(done.stderr.decode().startswith("gcaudit-fleet: " + why), done.stderr.decode())

    def test_a_group_at_several_collections_counts_once(self):
        lines = [*heap(sessions(1))[:-1], COLLECT, *sessions(2, before=1), COLLECT]
        self.heaps(a=lines)
        self.assertEqual(
            self.fleet("a").split("\n"),
            [
                "Session must be dead and is reached (3 times in 1 of 1 audited heap; they keep 3 objects, 30 bytes alive alone in all)",
                "    in a: root cache -> 1 Cache .sessions -> 2 list [0] -> 10 Session",
                "1 group of violations; 1 heap: 1 with violations, 0 without",
                "",
            ],
        )

    def dumps(self, *counts):
        """A dump for each number: one of a chain of so many sessions."""
        for number, count in enumerate(counts, 1):
            with open(self.path("d%d" % number), "wb") as file:
                file.write(written_hprof("I", ["shop/Order"] + ["shop/Session"] * count))
        return ["d%d" % number for number in range(1, len(counts) + 1)]

    def test_what_is_asserted_of_dumps(self):
        names = self.dumps(0, 1)
        self.assertEqual(
            self.fleet(*names, "--dead", "shop.Session", "--may-be-missing").split("\n")[-2],
            "1 group of violations; 2 heaps: 1 with violations, 1 without",
        )
        # A dump that doesn't know the class may be one of another program: it isn't counted among those that are well.
        self.assertEqual(
            self.fleet(*names, "--limit", "shop.Session=1", status=2).split("\n"),
            [
                "could not be audited: d1: the dump has no class shop.Session and none with a name like it",
                "0 groups of violations; 2 heaps: 0 with violations, 1 without, 1 could not be audited",
                "",
            ],
        )
        said = self.fleet(*names, status=2)
        self.assertEqual(said.count("asserts nothing, so nothing was checked"), 2)

    def test_assertions_that_no_heap_takes(self):
        """Traces alone: what is asserted of dumps would be asserted of nothing."""
        done = self.run_module("fleet", *self.heaps(a=heap()), "--owned-by", "A=B", "--gcaudit", PROGRAM)
        self.assertEqual(
            (done.returncode, done.stderr.decode()),
            (
                2,
                "gcaudit-fleet: --owned-by is for dumps, and all of these heaps are traces, which have their own assertions\n",
            ),
        )

    def program(self, *lines):
        """A program in gcaudit's place, by lines of a shell."""
        path = self.path("program")
        with open(path, "w") as file:
            file.write("\n".join(["#!/bin/sh", *lines, 'exec %s "$@"' % PROGRAM, ""]))
        os.chmod(path, 0o755)
        return path

    @unittest.skipIf(os.name != "posix", "signals and shells are those of POSIX")
    def test_a_process_that_is_killed(self):
        """The heap that it audited is a row, and the others are audited."""
        names = self.heaps(h1=heap(), h2=heap(sessions(1)), h3=heap(), h4=heap())
        program = self.program('mkdir "%s" 2> /dev/null && kill -9 $PPID' % self.path("killed"))
        self.assertEqual(
            self.said("fleet", *names, "--jobs", "1", "--gcaudit", program, status=1).split("\n")[2:],
            [
                "could not be audited: h1: the process that audited it was killed by signal 9",
                "1 group of violations; 4 heaps: 1 with violations, 2 without, 1 could not be audited",
                "",
            ],
        )

    def test_temporary_files_are_deleted(self):
        """Also those of a process that was killed, and those of a command that is stopped."""
        temporary = self.path("temporary")
        os.mkdir(temporary)
        names = self.dumps(1, 1)
        words = ["--dead", "shop.Session", "--jobs", "2", *names]
        environment = dict(os.environ, PYTHONPATH=RECORDERS, TMPDIR=temporary)
        module = [sys.executable, "-B", "-m", "gcaudit_trace.commands.fleet", *words, "--gcaudit"]
        for program, status in (
            (PROGRAM, 1),
            (self.program('mkdir "%s" 2> /dev/null && kill -9 $PPID' % self.path("killed")), 1),
        ):
            done = subprocess.run([*module, program], cwd=self.folder, env=environment, stdout=subprocess.PIPE)
            self.assertEqual((done.returncode, os.listdir(temporary)), (status, []))
        program = self.program("echo > %s" % self.path("began"), "while :; do sleep 1; done")
        with subprocess.Popen([*module, program], cwd=self.folder, env=environment, stderr=subprocess.PIPE) as process:
            while not os.path.exists(self.path("began")):
                time.sleep(0.1)
            self.assertNotEqual(os.listdir(temporary), [])
            process.send_signal(signal.SIGTERM)
            self.assertEqual(process.stderr.read(), b"gcaudit-fleet: stopped\n")
        self.assertEqual((process.returncode, os.listdir(temporary)), (128 + signal.SIGTERM, []))

    def test_forms(self):
        """JUnit, SARIF and the page have the groups, and what could not be audited."""
        names = self.heaps(h1=heap(sessions(2)), h2=heap(sessions(1), BUFFER))
        self.fleet(*names, "h0", "--junit", "junit.xml", "--sarif", "out.sarif", "--html", "page.html")
        suite = ElementTree.parse(self.path("junit.xml")).getroot()[0]
        self.assertEqual([suite.get(name) for name in ("tests", "failures", "errors")], ["3", "2", "1"])
        self.assertEqual(
            [(case.get("name"), case[0].tag) for case in suite.findall("testcase")],
            [
                ("dead Buffer root cache -> Cache .buffer -> Buffer", "failure"),
                ("dead Session root cache -> Cache .sessions -> list [*] -> Session", "failure"),
                ("h0", "error"),
            ],
        )
        with open(self.path("out.sarif")) as file:
            run = json.load(file)["runs"][0]
        result = run["results"][1]
        self.assertEqual(
            (result["occurrenceCount"], result["properties"]),
            (
                3,
                {
                    "heaps": 2,
                    "byLabel": ["h1: 1 of 1 heap", "h2: 1 of 1 heap"],
                    "keptAlone": {"objects": 3, "bytes": 30},
                },
            ),
        )
        self.assertEqual(result["locations"][0]["physicalLocation"]["artifactLocation"]["uri"], "h1")
        self.assertEqual(
            [one["message"]["text"] for one in run["invocations"][0]["toolExecutionNotifications"]],
            ["could not be audited: h0 can't be read: No such file or directory"],
        )
        self.assertFalse(run["invocations"][0]["executionSuccessful"])
        with open(self.path("page.html")) as file:
            text = file.read()
        self.assertEqual([text.count(part) for part in ("<details", "<svg")], [2, 2])
        self.assertIn("<p>could not be audited: h0 can&#x27;t be read: No such file or directory</p>", text)
        self.assertIn(
            "<h1>2 groups of violations; 3 heaps: 2 with violations, 0 without, 1 could not be audited</h1>", text
        )
        if python_with("jsonschema") is not None:
            program = "import json, sys, jsonschema; jsonschema.validate(*(json.load(open(p)) for p in sys.argv[1:]))"
            schema = os.path.join(RECORDERS, "tests", "schemas", "sarif-2.1.0-rtm.4.json")
            subprocess.run([python_with("jsonschema"), "-c", program, self.path("out.sarif"), schema], check=True)


class OnDask(Commands):
    """A cluster on the loopback: a scheduler and three workers, processes of their own."""

    @unittest.skipIf(DASK is not None and sys.executable == DASK, "distributed is there")
    def test_without_the_package(self):
        self.write(*heap(), name="a")
        done = self.run_module("fleet", "--dask", "tcp://127.0.0.1:1", "a")
        self.assertEqual(
            (done.returncode, done.stderr.decode()),
            (
                2,
                "gcaudit-fleet: --dask needs the Python package distributed: pip install distributed, "
                "or Debian's python3-distributed\n",
            ),
        )

    def start(self, name, *words):
        """Starts a command of Dask, by the Python that has it."""
        environment = dict(os.environ, PYTHONPATH=RECORDERS, DASK_LOGGING__DISTRIBUTED="error")
        process = subprocess.Popen(
            [DASK, "-B", "-m", "distributed.cli.dask_" + name, *words],
            cwd=self.folder,
            env=environment,
            stdout=subprocess.DEVNULL,
            stderr=subprocess.DEVNULL,
        )
        self.addCleanup(process.wait)
        self.addCleanup(process.kill)
        return process

    def cluster(self):
        """The address of a scheduler, and its workers."""
        self.start(
            "scheduler", "--host", "127.0.0.1", "--port", "0", "--no-dashboard", "--scheduler-file", self.path("where")
        )
        while not os.path.exists(self.path("where")):
            time.sleep(0.1)
        with open(self.path("where")) as file:
            address = json.load(file)["address"]
        workers = [
            self.start("worker", address, "--host", "127.0.0.1", "--nthreads", "1", "--no-nanny", "--no-dashboard")
            for _ in range(3)
        ]
        return address, workers

    @needs_program
    @unittest.skipIf(DASK is None, "distributed is not there")
    @unittest.skipIf(os.name != "posix", "signals and shells are those of POSIX")
    def test_the_same_though_a_worker_is_killed(self):
        """At the fifth heap its worker is killed, which has had others: each heap still counts once."""
        names = []
        for number in range(1, 21):
            names.append("h%d" % number)
            self.write(*heap(sessions(number % 3)), name=names[-1])
        with open(self.path("h7"), "w") as file:
            file.write("no heap")
        kill = self.path("program")
        with open(kill, "w") as file:
            file.write(
                "#!/bin/sh\necho >> {0}/count\nif [ $(wc -l < {0}/count) -ge 5 ] && mkdir {0}/killed 2> /dev/null; then\n"
                'kill -9 $PPID; fi\nexec {1} "$@"\n'.format(self.folder, PROGRAM)
            )
        os.chmod(kill, 0o755)
        address, workers = self.cluster()
        words = [DASK, "-B", "-m", "gcaudit_trace.commands.fleet", *names, "--gcaudit"]
        told = [
            subprocess.run(
                [*words, program, *where],
                cwd=self.folder,
                env=dict(os.environ, PYTHONPATH=RECORDERS),
                stdout=subprocess.PIPE,
            )
            for program, where in ((kill, ["--dask", address]), (PROGRAM, ["--jobs", "2"]))
        ]
        self.assertEqual(sorted(str(worker.poll()) for worker in workers), ["-9", "None", "None"])
        # Of 20 heaps those with 1 and 2 sessions by turns: h1 h2, h4 h5, .., h19 h20, without h7, which had one.
        self.assertEqual(
            told[1].stdout.decode().split("\n"),
            [
                "Session must be dead and is reached (20 times in 13 of 19 audited heaps; since h1 (the first); "
                "they keep 20 objects, 200 bytes alive alone in all)",
                "    in h1: root cache -> 1 Cache .sessions -> 2 list [0] -> 10 Session",
                "could not be audited: h7 is neither a trace nor a heap dump: HPROF, a snapshot of V8, or a dump of Ruby",
                "1 group of violations; 20 heaps: 13 with violations, 6 without, 1 could not be audited",
                "",
            ],
        )
        self.assertEqual((told[0].stdout, told[0].returncode), (told[1].stdout, told[1].returncode))


class Merging(unittest.TestCase):
    def test_a_heap_without_a_result_is_not_well(self):
        sources = [Source("a", "a"), Source("b", "b")]
        fleet = Fleet(sources, Part({}, {0: False}, {}))
        self.assertEqual(fleet.status, 2)
        self.assertEqual(
            fleet.text(),
            "could not be audited: b: no result came\n"
            "0 groups of violations; 2 heaps: 0 with violations, 1 without, 1 could not be audited\n",
        )

    def test_a_part_that_comes_twice_counts_once(self):
        part = Part({}, {0: False}, {1: "b: why"})
        self.assertEqual(merged([part, part]), part)


if __name__ == "__main__":
    unittest.main()

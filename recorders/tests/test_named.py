"""gcaudit-named: the words it passes on, what it reads and writes, and how it ends where something goes wrong."""
import gzip
import io
import json
import os
import resource
import signal
import subprocess
import sys
import tempfile
import time
import unittest
from unittest import mock

from tests.support import PROGRAM, RECORDERS, InFolder, needs_program

from gcaudit_trace import TraceError, audit
from gcaudit_trace.progress import Progress
from gcaudit_trace.reports.report import read_report

LEAK = (
    '{"op":"alloc","id":1,"type":"App","slots":2}\n{"op":"alloc","id":2,"type":"Config"}\n{"op":"alloc","id":3,"type":"Config"}\n'
    '{"op":"store","at":1,"slot":0,"to":2,"label":".config"}\n{"op":"store","at":1,"slot":1,"to":3,"label":".other"}\n'
    '{"op":"root","name":"app","to":1}\n{"op":"assert-instances","type":"Config","limit":1}\n{"op":"assert-dead","id":3}\n{"op":"collect"}\n'
    '{"op":"collect"}\n'
)
NAMED = (
    "gc 1 live 3 traced 3 freed 0\ngc 1 dead 3 Config: root app -> 1 App .other -> 3 Config\n"
    "gc 1 instances Config limit 1 found 2: root app -> 1 App .other -> 3 Config\n"
)
ENDLESS = (
    "#!%s\nimport os, time\nwith open(%%r, 'w') as file:\n    file.write(str(os.getpid()))\nwhile True:\n    time.sleep(1)\n"
    % sys.executable
)


def is_running(process):
    try:
        os.kill(process, 0)
    except ProcessLookupError:
        return False
    return True


@needs_program
class Named(InFolder):
    def setUp(self):
        super().setUp()
        self.trace = self.path("trace.jsonl")
        with open(self.trace, "w") as file:
            file.write(LEAK)

    def run_named(self, *words, **more):
        return subprocess.run(
            [sys.executable, "-B", "-m", "gcaudit_trace", "--gcaudit", PROGRAM, *words],
            stdout=more.pop("stdout", subprocess.PIPE),
            stderr=subprocess.PIPE,
            env=dict(os.environ, PYTHONPATH=RECORDERS),
            **more,
        )

    def test_words_for_gcaudit(self):
        done = self.run_named(self.trace, "--react", "halt", "--workers", "2")
        self.assertEqual((done.returncode, done.stdout.decode()), (1, NAMED + "halt gc 1 violations 2\n"))
        done = self.run_named(self.trace, "--paths", "0")
        self.assertEqual(done.stdout.decode().count(": path left out\n"), 4)
        done = self.run_named(self.trace, "--react", "force")
        self.assertIn("gc 1 cleared 1\n", done.stdout.decode())
        for words in (
            ["--workers", "0"],
            ["--workers", "17"],
            ["--workers", "x"],
            ["--paths", "-1"],
            ["--paths", "10001"],
        ):
            done = self.run_named(self.trace, *words)
            self.assertEqual((done.returncode, done.stdout), (2, b""))
            self.assertIn(words[0].encode(), done.stderr)

    def test_where_it_reads_and_writes(self):
        report = self.run_named(self.trace).stdout
        self.assertEqual(self.run_named(input=LEAK.encode()).stdout, report)
        self.assertEqual(self.run_named("-", input=LEAK.encode()).stdout, report)
        with gzip.open(self.path("trace.gz"), "wb") as file:
            file.write(LEAK.encode())
        self.assertEqual(self.run_named(self.path("trace.gz")).stdout, report)
        done = self.run_named(self.trace, "--output", self.path("report"))
        self.assertEqual((done.returncode, done.stdout), (1, b""))
        with open(self.path("report"), "rb") as file:
            self.assertEqual(file.read(), report)
        self.assertEqual(sorted(os.listdir(self.folder)), ["report", "trace.gz", "trace.jsonl"])

    def test_a_path_to_each_instance(self):
        done = self.run_named(self.trace, "--all-instances")
        self.assertIn(
            NAMED + "gc 1 instance 1 of 2 Config: root app -> 1 App .config -> 2 Config\n"
            "gc 1 instance 2 of 2 Config: root app -> 1 App .other -> 3 Config\n",
            done.stdout.decode(),
        )

    def test_what_goes_wrong_is_a_sentence(self):
        for words in (
            [self.path("none")],
            [self.folder],
            [self.trace, "--output", self.path("no/folder")],
            [self.trace, "--gcaudit", "/no/such"],
        ):
            done = self.run_named(*words)
            self.assertEqual(done.returncode, 2)
            self.assertRegex(done.stderr.decode(), r"^gcaudit-named: [^\n]+\n$")
        with open(self.path("cut.gz"), "wb") as file:
            file.write(gzip.compress(LEAK.encode())[:50])
        done = self.run_named(self.path("cut.gz"))
        self.assertRegex(done.stderr.decode(), r"^gcaudit-named: \S+ is packed by gzip and damaged: [^\n]+\n$")
        with open("/dev/full", "w") as full:
            done = self.run_named(self.trace, stdout=full)
        self.assertEqual(
            (done.returncode, done.stderr.decode()), (2, "gcaudit-named: standard output: No space left on device\n")
        )

    def test_a_reader_that_is_gone(self):
        reading, writing = os.pipe()
        os.close(reading)
        with os.fdopen(writing, "w") as gone:
            done = self.run_named(self.trace, stdout=gone)
        self.assertEqual(
            (done.returncode, done.stderr.decode()), (2, "gcaudit-named: nobody reads the output any longer\n")
        )

    def test_ctrl_c_and_other_ends(self):
        """A word, the status of the signal, and nothing is left: no temporary file, and no gcaudit that goes on."""
        ends = ((signal.SIGINT, 130), (signal.SIGTERM, 143), (signal.SIGHUP, 129))

        def heeded():
            # (a shell has what it starts in the background ignore Ctrl-C, and so all that this starts)
            for number, _ in ends:
                signal.signal(number, signal.SIG_DFL)

        for number, status in ends:
            folder, begun = self.path("temporary%d" % number), self.path("begun%d" % number)
            os.mkdir(folder)
            with open(self.path("endless"), "w") as file:
                file.write(ENDLESS % begun)
            os.chmod(self.path("endless"), 0o755)
            process = subprocess.Popen(
                [sys.executable, "-B", "-m", "gcaudit_trace", "--gcaudit", self.path("endless")],
                stdin=subprocess.PIPE,
                stderr=subprocess.PIPE,
                preexec_fn=heeded,
                env=dict(os.environ, PYTHONPATH=RECORDERS, TMPDIR=folder),
            )
            process.stdin.write(LEAK.encode())
            process.stdin.close()
            process.stdin = None
            self.await_that(lambda: os.path.exists(begun) and os.path.getsize(begun))
            process.send_signal(number)
            self.assertEqual(process.communicate(timeout=60)[1], b"gcaudit-named: stopped\n")
            self.assertEqual((process.returncode, os.listdir(folder)), (status, []))
            with open(begun) as file:
                child = int(file.read())
            self.await_that(lambda: not is_running(child))

    def await_that(self, holds):
        end = time.monotonic() + 120
        while not holds():
            self.assertLess(time.monotonic(), end)
            time.sleep(0.02)

    def test_no_room_for_a_copy_of_standard_input(self):
        def limited():
            resource.setrlimit(resource.RLIMIT_FSIZE, (100, 100))

        done = self.run_named("-", input=LEAK.encode(), preexec_fn=limited)
        self.assertEqual(
            (done.returncode, done.stderr.decode()),
            (2, "gcaudit-named: standard input can't be copied into the folder for temporary files: File too large\n"),
        )

    def test_what_is_read_is_not_replaced(self):
        os.symlink(self.trace, self.path("link"))
        for place in (self.trace, self.path("link"), os.path.join(self.folder, ".", "trace.jsonl")):
            done = self.run_named(self.trace, "--output", place)
            self.assertEqual((done.returncode, done.stdout), (2, b""))
            self.assertIn("%s would be replaced" % place, done.stderr.decode())
        with open(self.trace) as file:
            self.assertEqual(file.read(), LEAK)

    def test_progress_after_two_seconds(self):
        said, now = io.StringIO(), [100.0]
        said.isatty = lambda: True
        with mock.patch("sys.stderr", said), mock.patch("gcaudit_trace.progress.time.monotonic", lambda: now[0]):
            progress = Progress("gcaudit-named", 2.0)
            for _ in range(35):
                now[0] += 0.1
                progress.at("naming the slots", 1 << 20, 3 << 20)
        self.assertEqual(said.getvalue(), "gcaudit-named: naming the slots: 1 of 3 MB\n" * 2)

    def test_other_ways_to_write_a_line(self):
        """Spaces, another order and escapes: the lines mean the same, and the names are found."""
        report = self.run_named(self.trace).stdout
        with open(self.trace) as file:
            found = [json.loads(line) for line in file]
        backwards = [dict(reversed(list(event.items()))) for event in found]
        for shown in (
            [json.dumps(event) for event in found],
            [json.dumps(event, separators=(",", ":")) for event in backwards],
            ["\n \t" + json.dumps(event, separators=(" ,", ": ")) + "\r" for event in found],
            [
                json.dumps(event, separators=(",", ":")).replace('"at":', '"\\u0061t":').replace('"id":', '"i\\u0064":')
                for event in found
            ],
        ):
            for paths in ("100", "10000"):
                with mock.patch("gcaudit_trace.reports.report._MOST_IN_EXPRESSION", int(paths) % 10000):
                    with open(self.trace, "w") as file:
                        file.write("\n".join(shown))
                    self.assertEqual(audit(self.trace, PROGRAM, ["--paths", paths]).named.encode(), report)

    def test_what_follows_a_halt_is_not_read(self):
        with open(self.trace, "a") as file:
            file.write("this is no line of a trace\n")
        self.assertEqual(audit(self.trace, PROGRAM, ["--react", "halt"]).named, NAMED + "halt gc 1 violations 2\n")

    def test_what_gcaudit_refuses(self):
        with open(self.trace, "a") as file:
            file.write('{"op":"store","at":9,"slot":0,"to":null}\n')
        with self.assertRaisesRegex(TraceError, "status 2.*fault line 11: NotLive 9"):
            audit(self.trace, PROGRAM)


class LargeTraces(InFolder):
    """Most lines of a large trace are of objects that no path meets."""

    def setUp(self):
        super().setUp()
        self.trace = self.path("trace.jsonl")
        with open(self.trace, "w") as file:
            file.writelines(
                '{"op":"alloc","id":%d,"type":"com.shop.Node%d","slots":2,"bytes":24}\n' % (number, number % 7)
                for number in range(1, 50001)
            )
            for slot in range(2):
                file.writelines(
                    '{"op":"store","at":%d,"slot":%d,"to":%d,"label":".next%d"}\n' % (number, slot, number + 1, slot)
                    for number in range(1, 50000)
                )
            file.write('{"op":"root","name":"top","to":1}\n{"op":"collect"}\n')
        line = "gc 1 dead %d com.shop.Node%d: root top -> 1 com.shop.Node1 [0] -> 2 com.shop.Node2 ... %d steps ... [1] -> %d com.shop.Node%d"
        dead = [number for number in range(4, 50000, 499)]
        self.report = "\n".join(line % (number, number % 7, number - 3, number, number % 7) for number in dead)
        self.named = self.report.replace("[0]", ".next0").replace("[1]", "[slot 1]")

    def test_the_names(self):
        self.assertEqual(read_report(self.report, self.trace).named, self.named)
        with mock.patch("gcaudit_trace.reports.report._MOST_IN_EXPRESSION", 50):
            self.assertEqual(read_report(self.report, self.trace).named, self.named)

    def test_lines_of_other_objects_are_not_read(self):
        for most in (4096, 50):
            with mock.patch("gcaudit_trace.reports.report._MOST_IN_EXPRESSION", most), mock.patch(
                "gcaudit_trace.reports.report.json.loads", side_effect=json.loads
            ) as loads:
                read_report(self.report, self.trace)
            self.assertLess(loads.call_count, 1000)

    def test_a_trace_that_gcsnap_made(self):
        """Its lines have their keys by the bytes of their names, and no labels; those of other objects are not read."""
        with open(self.trace) as lines:
            found = [json.loads(line) for line in lines]
        with open(self.trace, "w") as file:
            for event in found:
                event.pop("label", None)
                event.pop("bytes", None)
                file.write(json.dumps(event, sort_keys=True, separators=(",", ":")) + "\n")
        named = self.report.replace("[0]", "[slot 0]").replace("[1]", "[slot 1]")
        for most in (4096, 50):
            with mock.patch("gcaudit_trace.reports.report._MOST_IN_EXPRESSION", most), mock.patch(
                "gcaudit_trace.reports.report.json.loads", side_effect=json.loads
            ) as loads:
                self.assertEqual(read_report(self.report, self.trace).named, named)
            self.assertLess(loads.call_count, 1000)

    def test_an_operation_behind_its_fields(self):
        """A field that an operation doesn't name is no reason to pass its line over."""
        with open(self.trace, "w") as file:
            file.write(
                '{"id":1,"op":"alloc","type":"A","slots":1}\n{"at":7,"op":"root","name":"top","to":1}\n{"id":7,"op":"root","name":"top","to":1}\n'
                '{"at":8,"op":"collect"}\n{"id":9,"op":"collect"}\n'
            )
        for most in (4096, 0):
            with mock.patch("gcaudit_trace.reports.report._MOST_IN_EXPRESSION", most):
                found = read_report("gc 2 dead 1 A: root top -> 1 A", self.trace)
                self.assertEqual(
                    [(verdict.kind, verdict.paths[0].root) for verdict in found.verdicts], [("dead", "top")]
                )

    def test_its_time(self):
        """It takes about as long as to split each line at its first commas."""

        def seconds(work):
            start = time.process_time()
            work()
            return time.process_time() - start

        def split():
            with open(self.trace, "rb") as lines:
                return [line for line in lines if line.split(b",", 2)[0] == b"{}"]

        shares = [seconds(lambda: read_report(self.report, self.trace)) / seconds(split) for _ in range(7)]
        self.assertLess(min(shares), 1.4)


if __name__ == "__main__":
    unittest.main()

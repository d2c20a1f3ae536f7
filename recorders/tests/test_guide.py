"""docs/GUIDE.md and the recorder in docs/TRACES.md do what they say: their files are written, their commands run, and they say what stands there."""
import contextlib
import os
import re
import signal
import subprocess
import sys
import unittest

from tests.support import (
    JUNIT_JARS,
    PROGRAM,
    RECORDERS,
    SNAPSHOTS,
    InFolder,
    needs_commands,
    needs_program,
    needs_snapshots,
    python_with,
    ruby_with,
)

GUIDE, TRACES = (os.path.join(os.path.dirname(RECORDERS), "docs", name) for name in ("GUIDE.md", "TRACES.md"))
PYTEST = python_with("pytest")
MINITEST = ruby_with("minitest")
MODULES = {
    "gcaudit-named": "gcaudit_trace",
    "gcaudit-view": "gcaudit_trace.commands.view",
    "gcaudit-fleet": "gcaudit_trace.commands.fleet",
    "gcaudit-growth": "gcaudit_trace.commands.growth",
    "gcaudit-summary": "gcaudit_trace.commands.summary",
    "hprof_to_trace": "hprof_to_trace",
    "heapsnapshot_to_trace": "heapsnapshot_to_trace",
    "rubyheap_to_trace": "rubyheap_to_trace",
}
END = "@@end of a command"
LIMIT = 900  # seconds for a section; nothing in it waits by the clock, so a busy machine only takes longer


def blocks_of(section, page=GUIDE):
    """The blocks of a section: their language and their lines."""
    with open(page, encoding="utf-8") as file:
        text = file.read().split("\n## %s\n" % section)[1].split("\n## ")[0]
    return [
        (found.group(1), found.group(2).split("\n")[:-1])
        for found in re.finditer(r"^```(\w+)\n(.*?)^```$", text, re.MULTILINE | re.DOTALL)
    ]


def without_numbers(text):
    """The text as it is from run to run: numbers and places differ."""
    text = re.sub(r"The trace is \S*?([^/\s]+)$", r"The trace is \1", text, flags=re.MULTILINE)
    text = re.sub(r"left out: .*", "left out", text)
    return re.sub(r"#(\.#)?( bytes| ->|\))", r"#\2", re.sub(r"\d[\d,]*", "#", text))


@needs_program
@unittest.skipIf(os.name != "posix", "the commands are those of a POSIX shell")
class Guide(InFolder):
    def setUp(self):
        super().setUp()
        os.mkdir(self.path("bin"))
        self.command("python3", '%s -B "$@"' % sys.executable)
        for name, module in MODULES.items():
            self.command(name, '%s -B -m %s "$@"' % (sys.executable, module))

    def command(self, name, words):
        with open(os.path.join(self.path("bin"), name), "w") as file:
            file.write("#!/bin/sh\nexec %s\n" % words)
        os.chmod(os.path.join(self.path("bin"), name), 0o755)

    def run_section(self, section, lacks=None, page=GUIDE, **variables):
        """Writes the files, mends them, and runs the commands, in the order of the page, but for those that name what `lacks`."""
        os.makedirs(self.path("work"), exist_ok=True)
        script, expected = [], []
        is_left_out = False
        for language, lines in blocks_of(section, page):
            if language == "console":
                for line in lines:
                    if line.startswith("$ ") and lacks is not None and lacks in line:
                        expected.append([])
                        script.append("echo; echo '%s'" % END)
                        is_left_out = True
                    elif line.startswith("$ "):
                        is_left_out = False
                        script += [line[2:], "echo; echo '%s'" % END]
                        expected.append([])
                    elif not is_left_out:
                        expected[-1].append(line)
            elif language == "diff":
                script.append(self.mended(lines))
            else:
                name = re.match(r"(?:#|//|--) (\S+)$", lines[0]).group(1)
                with open(os.path.join(self.path("work"), name), "w") as file:
                    file.write("\n".join(lines[1:]) + "\n")
        environment = dict(
            os.environ,
            PYTHONPATH=RECORDERS,
            GCAUDIT=PROGRAM,
            PATH=self.path("bin") + os.pathsep + os.environ["PATH"],
            PYTHONDONTWRITEBYTECODE="1",
            COLUMNS="80",
            **variables,
            PYTEST_ADDOPTS="-p gcaudit_recorder.pytest_plugin -p no:cacheprovider --basetemp=" + self.path("temporary"),
        )
        with open(self.path("said"), "wb") as said:
            shell = subprocess.Popen(
                ["bash", "-c", "\n".join(script)],
                cwd=self.path("work"),
                env=environment,
                stdout=said,
                stderr=subprocess.STDOUT,
                start_new_session=True,
            )
            try:
                shell.wait(timeout=LIMIT)
            finally:
                with contextlib.suppress(ProcessLookupError):
                    os.killpg(shell.pid, signal.SIGKILL)  # what it left running
        with open(self.path("said"), encoding="utf-8") as file:
            whole = file.read()
        said = whole.split("\n%s\n" % END)
        self.assertEqual(len(said), len(expected) + 1, whole)
        for found, lines in zip(said, expected):
            found = "\n".join(line for line in found.split("\n") if line and not re.match(r"\[\d+\]", line))
            self.assertEqual(without_numbers(found), without_numbers("\n".join(lines)))

    @staticmethod
    def mended(lines):
        """The command that mends a file by the lines of a diff, which have what was there and what is there then."""
        old = "\n".join(line[1:] for line in lines[1:] if line[0] in " -")
        new = "\n".join(line[1:] for line in lines[1:] if line[0] in " +")
        program = "text = open(%r).read(); assert text.count(%r) == 1; open(%r, 'w').write(text.replace(%r, %r))" % (
            lines[0][4:],
            old,
            lines[0][4:],
            old,
            new,
        )
        return "python3 - <<'END'\n%s\nEND" % program

    @unittest.skipIf(PYTEST is None, "pytest is not there")
    def test_python(self):
        self.command("python3", '%s -B "$@"' % PYTEST)
        self.run_section("A Python program")

    @needs_commands("java", "javac", "jar", "jcmd", "bash")
    def test_jvm(self):
        os.mkdir(self.path("work"))
        subprocess.run(
            [os.path.join(RECORDERS, "jvm", "build"), self.path("built")], check=True, stderr=subprocess.DEVNULL
        )
        jar = next(name for name in os.listdir(self.path("built")) if name.endswith(".jar"))
        os.rename(self.path(os.path.join("built", jar)), self.path(os.path.join("work", "gcaudit.jar")))
        has_junit = all(map(os.path.exists, JUNIT_JARS))
        self.run_section("A program on the JVM", None if has_junit else "$JUNIT", JUNIT=os.pathsep.join(JUNIT_JARS))

    @needs_commands("node", "bash")
    def test_node(self):
        os.makedirs(self.path("work/node_modules"))
        os.symlink(os.path.join(RECORDERS, "node"), self.path("work/node_modules/gcaudit"))
        self.run_section("A program on Node")

    @needs_commands("ruby", "bash")
    @unittest.skipIf(MINITEST is None, "minitest is not there")
    def test_ruby(self):
        self.run_section("A program in Ruby", RUBYLIB=os.path.join(RECORDERS, "ruby", "lib"))

    @needs_commands("lua5.4", "bash")
    def test_a_recorder_for_another_runtime(self):
        section = "A recorder for another runtime"
        self.run_section(section, page=TRACES)
        recorder = next(lines for language, lines in blocks_of(section, TRACES) if language == "lua")
        self.assertEqual(len([line for line in recorder[1:] if line]), 50)

    @needs_snapshots
    @needs_commands("node", "bash")
    def test_snapshot(self):
        self.command("gcsnap", SNAPSHOTS + ' "$@"')
        self.run_section("A heap kept for later")

    @needs_commands("bash")
    def test_fleet(self):
        self.run_section("Many heaps of one program")

    def test_the_picture_is_there(self):
        with open(os.path.join(os.path.dirname(GUIDE), "view.png"), "rb") as file:
            self.assertEqual(file.read(8), b"\x89PNG\r\n\x1a\n")


if __name__ == "__main__":
    unittest.main()

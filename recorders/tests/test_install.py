"""Installed by pip without network: the commands run, and pytest finds the fixture by itself."""
import os
import shutil
import subprocess
import tempfile
import unittest

from tests.support import PROGRAM, RECORDERS, needs_program, python_with

PYTHON = python_with("pip", "setuptools", "wheel", "venv")
TEST = """
class Thing:
    pass

def test_thing(heap):
    thing = Thing()
    heap.root("things", [thing])
    heap.assert_dead(thing)
"""


@unittest.skipIf(PYTHON is None, "pip, setuptools, wheel and venv are not there")
class Installed(unittest.TestCase):
    @classmethod
    def setUpClass(cls):
        cls.folder = tempfile.mkdtemp(prefix="gcaudit-test-")
        cls.addClassCleanup(shutil.rmtree, cls.folder, ignore_errors=True)
        cls.environment = {name: value for name, value in os.environ.items() if name not in ("PYTHONPATH", "GCAUDIT")}
        source, place = os.path.join(cls.folder, "recorders"), os.path.join(cls.folder, "installed")
        shutil.copytree(RECORDERS, source, ignore=shutil.ignore_patterns("build", "*.egg-info", "__pycache__", "tests"))
        cls.commands = os.path.join(place, "bin")
        cls.run_words(PYTHON, "-m", "venv", "--system-site-packages", "--without-pip", place)
        cls.run_words(cls.command("python"), "-m", "pip", "install", "--no-index", "--no-build-isolation", source)

    @classmethod
    def command(cls, name):
        return os.path.join(cls.commands, name)

    @classmethod
    def run_words(cls, *words, status=0):
        """What a command says, which must end with the status."""
        done = subprocess.run(
            words, cwd=cls.folder, env=cls.environment, stdout=subprocess.PIPE, stderr=subprocess.STDOUT, timeout=300
        )
        said = done.stdout.decode()
        if done.returncode != status:
            raise AssertionError("%s ended with %d: %s" % (" ".join(words), done.returncode, said))
        return said

    def test_the_commands_run(self):
        for name in (
            "hprof_to_trace",
            "heapsnapshot_to_trace",
            "gcaudit-from-hprof",
            "rubyheap_to_trace",
            "gcaudit-from-heapsnapshot",
            "gcaudit-from-rubyheap",
            "gcaudit-named",
            "gcaudit-summary",
            "gcaudit-growth",
            "gcaudit-view",
            "gcaudit-fleet",
        ):
            self.assertIn("usage: %s " % name, self.run_words(self.command(name), "--help"))
            takes_one = name in ("gcaudit-named", "gcaudit-summary", "gcaudit-view")
            self.assertIn(
                "%s: " % name, self.run_words(self.command(name), *["no such file"] * (1 if takes_one else 2), status=2)
            )

    @needs_program
    def test_a_command_starts_processes(self):
        said = self.run_words(self.command("gcaudit-fleet"), "--gcaudit", PROGRAM, "--jobs", "2", "a", "b", status=2)
        self.assertTrue(said.endswith("2 heaps: 0 with violations, 0 without, 2 could not be audited\n"), said)

    def test_the_modules_are_those_installed(self):
        for name in (
            "gcaudit_recorder",
            "gcaudit_trace",
            "hprof_to_trace",
            "heapsnapshot_to_trace",
            "rubyheap_to_trace",
        ):
            said = self.run_words(self.command("python"), "-c", "import %s; print(%s.__file__)" % (name, name))
            self.assertTrue(
                os.path.realpath(said.strip()).startswith(os.path.realpath(self.commands[: -len("bin")])), said
            )

    @needs_program
    def test_pytest_finds_the_fixture(self):
        if python_with("pytest", among=[self.command("python")]) is None:
            self.skipTest("pytest is not there")
        with open(os.path.join(self.folder, "test_thing.py"), "w") as file:
            file.write(TEST)
        said = self.run_words(
            self.command("python"),
            "-m",
            "pytest",
            "-p",
            "no:cacheprovider",
            "--basetemp",
            os.path.join(self.folder, "temporary"),
            "--gcaudit",
            PROGRAM,
            "test_thing.py",
            status=1,
        )
        self.assertIn("root things -> 1 list [0] -> 2 test_thing.Thing\n", said)

    @needs_program
    def test_the_plugin_is_registered_once(self):
        """Installed, and also on PYTHONPATH, and named by -p."""
        if python_with("pytest", among=[self.command("python")]) is None:
            self.skipTest("pytest is not there")
        with open(os.path.join(self.folder, "test_gone.py"), "w") as file:
            file.write(TEST + "    thing = heap.root('things', None)\n    heap.root('other', [])\n")
        for pythonpath in ({}, {"PYTHONPATH": RECORDERS}):
            for named in ([], ["-p", "gcaudit_recorder.pytest_plugin"]):
                done = subprocess.run(
                    [
                        self.command("python"),
                        "-B",
                        "-m",
                        "pytest",
                        "-p",
                        "no:cacheprovider",
                        *named,
                        "--basetemp",
                        os.path.join(self.folder, "temporary"),
                        "--gcaudit",
                        PROGRAM,
                        "test_gone.py",
                    ],
                    cwd=self.folder,
                    env=dict(self.environment, **pythonpath),
                    stdout=subprocess.PIPE,
                    stderr=subprocess.STDOUT,
                )
                self.assertIn("1 passed in ", done.stdout.decode())


if __name__ == "__main__":
    unittest.main()

"""What the tests share: the program gcaudit, where it is built, and a folder of their own."""
import json
import os
import shutil
import subprocess
import sys
import tempfile
import unittest

RECORDERS = os.path.dirname(os.path.dirname(os.path.abspath(__file__)))
PROGRAMS = os.path.join(RECORDERS, "tests", "programs")
if RECORDERS not in sys.path:
    sys.path.insert(0, RECORDERS)


def built(name):
    """A program of the repository: the one that the variable of its name in capitals says, or the built one. None where there is neither."""
    found = os.path.join(os.path.dirname(RECORDERS), "crates", name, "out", name)
    return os.environ.get(name.upper()) or (found if os.access(found, os.X_OK) else None)


PROGRAM, LARGE, SNAPSHOTS = built("gcaudit"), built("gcheap"), built("gcsnap")
needs_program = unittest.skipIf(PROGRAM is None, "gcaudit is not built")
needs_snapshots = unittest.skipIf(PROGRAM is None or SNAPSHOTS is None, "gcaudit or gcsnap is not built")

# The jars of JUnit 5 and of its console, as Debian's package junit5 has them.
_JUNIT = "junit-jupiter-api junit-jupiter-engine junit-platform-commons junit-platform-engine junit-platform-launcher "
_JUNIT += "junit-platform-console junit-platform-reporting opentest4j apiguardian-api opentest4j-reporting-events "
_JUNIT += "opentest4j-reporting-schema picocli"
JUNIT_JARS = [os.path.join("/usr/share/java", name + ".jar") for name in _JUNIT.split()]


def needs_commands(*names):
    missing = [name for name in names if shutil.which(name) is None]
    return unittest.skipIf(missing, "not there: " + ", ".join(missing))


_HAS_MODULES = "import sys, importlib.util as u; sys.exit(not all(map(u.find_spec, sys.argv[1:])))"


def python_with(*modules, among=(sys.executable, "/usr/bin/python3")):
    """The first Python that has the modules: the one that runs the tests, or else the system's. None where neither has."""
    for python in among:
        try:
            found = subprocess.run([python, "-c", _HAS_MODULES, *modules])
        except OSError:
            continue
        if found.returncode == 0:
            return python
    return None


def ruby_with(module):
    """The ruby that has a module; None where there is none."""
    ruby = shutil.which("ruby")
    return (
        ruby
        if ruby and subprocess.run([ruby, "-e", "require ARGV[0]", module], stderr=subprocess.DEVNULL).returncode == 0
        else None
    )


class InFolder(unittest.TestCase):
    """A test with a temporary folder, `self.folder`."""

    def setUp(self):
        self.folder = tempfile.mkdtemp(prefix="gcaudit-test-")
        self.addCleanup(shutil.rmtree, self.folder, ignore_errors=True)

    def path(self, name):
        return os.path.join(self.folder, name)


def events(path):
    """The operations of a trace."""
    with open(path, encoding="utf-8") as lines:
        return [json.loads(line) for line in lines]

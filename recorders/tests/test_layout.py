"""The sources have one layout, black's, and their types agree, where the tools that tell are there."""
import re
import subprocess
import unittest

from tests.support import RECORDERS, python_with

MYPY, BLACK = python_with("mypy"), python_with("black")
LAYOUT_OF = "23"  # the layout changes a little from year to year


def run(*words):
    return subprocess.run(words, cwd=RECORDERS, stdout=subprocess.PIPE, stderr=subprocess.STDOUT, text=True)


class Layout(unittest.TestCase):
    @unittest.skipIf(MYPY is None, "mypy is not there")
    def test_types_agree(self):
        done = run(MYPY, "-m", "mypy", "--cache-dir=/dev/null")
        self.assertEqual(done.returncode, 0, done.stdout)

    @unittest.skipIf(BLACK is None, "black is not there")
    def test_the_layout_is_blacks(self):
        found = re.search(r"\d+", run(BLACK, "-m", "black", "--version").stdout)
        if found is None or found.group() != LAYOUT_OF:
            self.skipTest("black is not there in the version %s" % LAYOUT_OF)
        done = run(BLACK, "-m", "black", "--check", "--quiet", "--diff", ".")
        self.assertEqual(done.returncode, 0, done.stdout)


if __name__ == "__main__":
    unittest.main()

"""A service on Flask with six leaks: all are found without a word of suspicion, by growth, and by assertions.

Its twin has none. It keeps the texts of its last errors and lines of the log, and when these buffers are full nothing grows.
"""
import os
import subprocess
import unittest
from concurrent.futures import ThreadPoolExecutor

from tests.support import PROGRAM, PROGRAMS, RECORDERS, InFolder, needs_program, python_with

FLASK = python_with("flask")
# What grows, and what it is held by.
GROWN = [
    ("Session", r"__main__\.Shop\.listeners"),
    ("Page", r"__main__\.Shop\.pages"),
    ("Order", r"__main__\.Shop\.callbacks"),
    ("Basket", r"frame pay \(local basket\)"),
    ("Job", r"frame work \(local done\)"),
    ("Visitor", r"logging\.LogRecord\.args"),
]
# What is asserted dead, and the last steps of its path.
DEAD = [
    ("Session", r"\.listeners -> \d+ list \[0\] -> \d+ method \S+ \.__self__ -> \d+ __main__\.Session"),
    ("Page", r"\.pages -> \d+ dict \[\d+\] -> \d+ __main__\.Page"),
    (
        "Order",
        r"\.callbacks -> \d+ list \[0\] -> \d+ function \S+ \(variable one\) -> \d+ cell \.cell_contents -> \d+ __main__\.Order",
    ),
    (
        "Basket",
        r"ValueError \S+ -> \d+ traceback .*\.tb_frame -> \d+ frame pay \(local basket\) -> \d+ __main__\.Basket",
    ),
    ("Job", r"frame work \(local done\) -> \d+ list \[0\] -> \d+ __main__\.Job"),
    ("Visitor", r"logging\.LogRecord \.args -> \d+ tuple \[0\] -> \d+ __main__\.Visitor"),
]


@unittest.skipIf(FLASK is None, "flask is not there")
class FlaskShop(InFolder):
    def said(self, way, leaks):
        folder = self.path(way + leaks)
        os.mkdir(folder)
        done = subprocess.run(
            [FLASK, "-B", os.path.join(PROGRAMS, "flask_shop.py"), way, leaks, folder],
            stdout=subprocess.PIPE,
            stderr=subprocess.PIPE,
            env=dict(os.environ, PYTHONPATH=RECORDERS, **({"GCAUDIT": PROGRAM} if PROGRAM else {})),
            timeout=600,
        )
        self.assertEqual((done.returncode, done.stderr.decode()), (0, ""))
        return done.stdout.decode()

    def of_both(self, way):
        """What is said of the shop that leaks, and of its twin."""
        with ThreadPoolExecutor(2) as side_by_side:
            return list(side_by_side.map(lambda leaks: self.said(way, leaks), ("leak", "clean")))

    def test_by_growth(self):
        leak, clean = self.of_both("growth")
        for name, holder in GROWN:
            self.assertRegex(
                leak, r"(?m)^ *\+1 __main__\.%s a round, [\d,]+ bytes, held by %s \(4 -> 5 -> 6\)$" % (name, holder)
            )
        self.assertEqual(clean, "nothing grew\n")

    @needs_program
    def test_by_assertions(self):
        leak, clean = self.of_both("assertions")
        for name, path in DEAD:
            self.assertRegex(leak, r"(?m)^gc 1 dead \d+ __main__\.%s: root .*%s$" % (name, path))
        self.assertIn("violations %d\n" % len(DEAD), leak)
        self.assertEqual(clean, "no violation\n")


if __name__ == "__main__":
    unittest.main()

"""Runs the tests of the recorders, in the folder recorders. The last line is 'N passed, M failed'.

python3 -m tests            all of them, as many classes of tests side by side as there are processors
python3 -m tests NAME ..    those of these modules or classes, one after another: tests.test_jvm, tests.test_jvm.Regions

With --quick as its first argument it leaves out those of LEFT_OUT below. Without a NAME it also says which these are.
"""
import os
import re
import subprocess
import sys
import unittest
from concurrent.futures import ThreadPoolExecutor, as_completed

from tests.support import RECORDERS

# What --quick leaves out, by class or by test; ./test runs it. With a gcaudit that isn't proved, most of these take
# from twenty seconds to ten minutes of a processor each, because a heap is large or is audited several times. The
# others take another tool or a package.
LEFT_OUT = {
    "tests.test_dumps.Java.test_100000_objects_and_the_limit",
    "tests.test_dumps.ManyLeaks.test_twenty_six_more_on_node",
    "tests.test_flask.FlaskShop.test_by_assertions",
    "tests.test_guide.Guide.test_jvm",
    "tests.test_guide.Guide.test_node",
    "tests.test_guide.Guide.test_ruby",
    "tests.test_guide.Guide.test_snapshot",
    "tests.test_jvm.Asserting.test_the_dump_is_kept_where_a_property_says_so",
    "tests.test_jvm.Checks",
    "tests.test_jvm.JUnit",
    "tests.test_jvm.Jar",
    "tests.test_jvm.LargeHeap",
    "tests.test_jvm.Maven",
    "tests.test_jvm.Regions.test_a_region_that_leaves_many_objects",
    "tests.test_node.Asserting.test_the_snapshot_is_kept_where_a_variable_says_so",
    "tests.test_node.Checks",
    "tests.test_node.LargeHeap",
    "tests.test_node.Package.test_it_is_built_and_imported_both_ways",
    "tests.test_node.Runners",
    "tests.test_other_readers.Java",
    "tests.test_other_readers.Node",
    "tests.test_python.Traces.test_100000_objects",
    "tests.test_ruby.Minitest",
    "tests.test_ruby.RSpec",
    "tests.test_subclasses.Node",
}
# Of the others, the classes that take longest. They begin first.
LONGEST = {
    "tests.test_dumps.ManyLeaks",
    "tests.test_dumps.Node",
    "tests.test_jvm.Asserting",
    "tests.test_jvm.Leaks",
    "tests.test_jvm.Regions",
    "tests.test_node.Asserting",
    "tests.test_node.Leaks",
}
COUNTED = re.compile(r"^(\d+) passed, (\d+) failed$")
SKIPPED = re.compile(r"^skipped: (\d+) tests?: (.*)$")


class Counting(unittest.TextTestResult):
    """Counts what passed; a skipped test counts neither way, and its reason is said at the end."""

    def __init__(self, *words, **named):
        super().__init__(*words, **named)
        self.passed = 0

    def addSuccess(self, test):
        super().addSuccess(test)
        self.passed += 1


def say_end(passed, failed, skipped):
    """Says how many tests were skipped for each reason, and how many passed and failed. The exit status is returned."""
    for reason, count in sorted(skipped.items()):
        print("skipped: %d tests: %s" % (count, reason))
    print("%d passed, %d failed" % (passed, failed))
    return 1 if failed else 0


def tests_of(suite):
    """The tests in a suite, and in those in it."""
    for test in suite:
        if isinstance(test, unittest.TestSuite):
            yield from tests_of(test)
        else:
            yield test


def class_of(test):
    """The name of a test's class; of a module that can't be read, its own name."""
    if isinstance(test, unittest.loader._FailedTest):
        return test._testMethodName
    return "%s.%s" % (type(test).__module__, type(test).__qualname__)


def without(left_out, suite):
    """The tests of a suite but for these."""
    return [test for test in tests_of(suite) if not left_out & {class_of(test), test.id()}]


def run_named(names, left_out):
    tests = unittest.TestSuite(without(left_out, unittest.defaultTestLoader.loadTestsFromNames(names)))
    done = unittest.TextTestRunner(stream=sys.stdout, resultclass=Counting).run(tests)
    skipped = {}
    for _, reason in done.skipped:
        skipped[reason] = skipped.get(reason, 0) + 1
    return say_end(done.passed, len(done.failures) + len(done.errors) + len(done.unexpectedSuccesses), skipped)


def run_class(name, words):
    ran = subprocess.run(
        [sys.executable, "-B", "-m", "tests", *words, name],
        cwd=RECORDERS,
        stdin=subprocess.DEVNULL,
        stdout=subprocess.PIPE,
        stderr=subprocess.STDOUT,
        text=True,
    )
    return name, ran.returncode, ran.stdout


def run_all(left_out, words):
    suite = unittest.defaultTestLoader.discover(os.path.join(RECORDERS, "tests"), top_level_dir=RECORDERS)
    gone = left_out - {name for test in tests_of(suite) for name in (class_of(test), test.id())}
    for name in sorted(gone):
        print("FAILED: there is no test %s to leave out" % name)
    if left_out:
        print("left out here, in ./test: %s" % ", ".join(sorted(left_out)))
    names = sorted(set(map(class_of, without(left_out, suite))), key=lambda name: (name not in LONGEST, name))
    passed, failed, skipped = 0, len(gone), {}
    with ThreadPoolExecutor(
        len(os.sched_getaffinity(0)) if hasattr(os, "sched_getaffinity") else os.cpu_count()
    ) as runs:
        for run in as_completed([runs.submit(run_class, name, words) for name in names]):
            name, status, said = run.result()
            print("%s\n%s" % (name, said), end="", flush=True)
            counted = COUNTED.match(said.splitlines()[-1]) if said else None
            these_passed, these_failed = map(int, counted.groups()) if counted else (0, 0)
            passed += these_passed
            # A class whose process ended in another way than by its last line has failed.
            failed += these_failed or (status != 0)
            for line in filter(None, map(SKIPPED.match, said.splitlines())):
                skipped[line.group(2)] = skipped.get(line.group(2), 0) + int(line.group(1))
    return say_end(passed, failed, skipped)


def main():
    os.environ.pop("PYTHONWARNINGS", None)
    is_quick = sys.argv[1:2] == ["--quick"]
    words, names = sys.argv[1 : 1 + is_quick], sys.argv[1 + is_quick :]
    left_out = LEFT_OUT if is_quick else set()
    return run_named(names, left_out) if names else run_all(left_out, words)


if __name__ == "__main__":
    sys.exit(main())

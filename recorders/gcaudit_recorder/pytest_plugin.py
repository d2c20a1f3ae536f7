"""The fixture `heap`: a recorder whose trace gcaudit checks at the end of the test. A violation fails the test.

    def test_logout(heap):
        bus = EventBus()
        heap.root("bus", bus)
        session = login(bus)
        logout(session)
        heap.assert_dead(session)

The check comes when the test has returned. The variables of its function are gone by then, and the roots are still
there. A recorder that a test makes itself and leaves without a check is said as a warning of that test.
"""
from typing import Any, Dict, List

import pytest

from gcaudit_trace import TraceError

from . import unchecked
from .notices import UncheckedWarning
from .recorder import Recorder
from .unchecked import Check
from .violation import HeapViolation

_HEAP = "_gcaudit_heap"  # the recorder of the fixture, as a test has it
_LEFT = "_gcaudit_left"  # the checks that are due when the test is over


def pytest_addoption(parser):
    parser.getgroup("gcaudit").addoption("--gcaudit", metavar="PROGRAM", default=None, help="the program gcaudit")


def pytest_configure(config):
    unchecked.watched = []


def pytest_unconfigure(config):
    unchecked.watched = None


class HeapFailure(pytest.fail.Exception, HeapViolation):  # type: ignore[name-defined]
    """A violation as the failure of a test: without a traceback, and an AssertionError, as xfail(raises=..) takes it."""

    def __init__(self, violation: HeapViolation) -> None:
        super().__init__(str(violation), pytrace=False)  # type: ignore[call-arg]
        self.report, self.named, self.trace = violation.report, violation.named, violation.trace


class HeapRecorder(Recorder):
    """A recorder that holds its roots: the variables that held them are gone when the test is checked."""

    def __init__(self, file: str) -> None:
        super().__init__(file)
        self._held_roots: Dict[str, Any] = {}

    def root(self, name: str, obj: Any) -> None:
        super().root(name, obj)
        self._held_roots[name] = obj


@pytest.fixture
def heap(request, tmp_path):
    """A Recorder without roots; the test names them by heap.root(name, object)."""
    recorder = HeapRecorder(str(tmp_path / "heap.jsonl"))
    setattr(request.node, _HEAP, recorder)
    yield recorder
    recorder.abandon()


@pytest.hookimpl(hookwrapper=True)
def pytest_runtest_call(item):
    """Runs gcaudit as a part of the test's call, so that a violation is a failure of the test and no error at its end.

    It is the call of any kind of test: of a function however it got the fixture, and of a method of unittest.
    """
    before = len(unchecked.watched or ())
    outcome = yield
    recorder = item.__dict__.pop(_HEAP, None)
    # What a method of unittest raises, its test keeps by itself.
    if outcome.excinfo is not None or getattr(item, "_excinfo", None):
        _settle((unchecked.watched or [])[before:])
        return
    setattr(item, _LEFT, (unchecked.watched or [])[before:])
    failure = None if recorder is None else _failure_of(recorder, item.config.getoption("--gcaudit"))
    if failure is not None:
        if not hasattr(outcome, "force_exception"):
            raise failure from None
        outcome.force_exception(failure)


def _failure_of(recorder: HeapRecorder, program: Any) -> Any:
    """Has gcaudit check. The answer is what the test fails with; None where it passed."""
    try:
        recorder.check(program)
    except HeapViolation as violation:
        return HeapFailure(violation)
    except (TraceError, OSError, MemoryError) as error:  # a test that wasn't checked hasn't passed
        return pytest.fail.Exception(str(error), pytrace=False)
    return None


def _settle(checks: List[Check]) -> None:
    """A test that failed anyway needs no warning."""
    for check in checks:
        check.is_settled = True


@pytest.hookimpl(hookwrapper=True)
def pytest_runtest_teardown(item):
    """Says which recorders of the test nobody checked, its fixtures neither. As an error it is one of the test."""
    yield
    _warn_of(item.__dict__.pop(_LEFT, []))
    if unchecked.watched is not None:
        unchecked.watched[:] = [check for check in unchecked.watched if not check.is_settled]


def _warn_of(checks: List[Check]) -> None:
    for check in checks:
        if check.is_missing():
            check.warn()


def pytest_sessionfinish(session):
    """The same of recorders that fixtures made; as an error it makes the whole run fail."""
    try:
        _warn_of(unchecked.watched or [])
    except UncheckedWarning as warning:
        reporter = session.config.pluginmanager.get_plugin("terminalreporter")
        if reporter is not None:
            reporter.write_line("\n%s: %s" % (type(warning).__name__, warning))
        session.exitstatus = pytest.ExitCode.TESTS_FAILED

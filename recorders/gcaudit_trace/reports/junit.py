"""JUnit XML, in which a group of a view is a failed test."""
import socket
import time
from typing import TYPE_CHECKING, List, NamedTuple
from xml.etree import ElementTree

from .groups import lasting_name

if TYPE_CHECKING:
    from .view import View


def _xml_text(text: str) -> str:
    """The text without what XML can't have."""
    return "".join(
        one if one in "\n\t" or (one.isprintable() and one not in "\ufffe\uffff") else "?"
        for one in text.replace("\r\n", "\n")
    )


class Case(NamedTuple):
    """A test that failed, or of which it isn't known: its name and its kind, what is wrong in a line, and all that there is to say."""

    name: str
    kind: str
    message: str
    text: str
    is_error: bool = False


def junit(view: "View") -> str:
    """JUnit XML of a view: a failed test for each group."""
    cases = [
        Case(lasting_name(shown.group), shown.group.kind, shown.title, "\n".join(shown.notes + shown.paths))
        for shown in view.shown
    ]
    return suite_of(cases, "%s: %d violations, %d collections" % (view.trace, view.violations, view.collections))


def suite_of(cases: List[Case], said: str) -> str:
    """JUnit XML: one suite of these tests, or of one that passed where there is none; `said` is its output."""
    errors = sum(case.is_error for case in cases)
    suite = ElementTree.Element(
        "testsuite",
        {
            "name": "gcaudit",
            "timestamp": time.strftime("%Y-%m-%dT%H:%M:%S", time.gmtime()),
            "hostname": socket.gethostname() or "localhost",
            "tests": str(max(len(cases), 1)),
            "failures": str(len(cases) - errors),
            "errors": str(errors),
            "skipped": "0",
            "time": "0",
        },
    )
    ElementTree.SubElement(suite, "properties")
    for case in cases:
        test = ElementTree.SubElement(
            suite,
            "testcase",
            {"name": _xml_text(case.name), "classname": "gcaudit." + case.kind, "time": "0"},
        )
        failure = ElementTree.SubElement(
            test,
            "error" if case.is_error else "failure",
            {"message": _xml_text(case.message), "type": case.kind},
        )
        failure.text = _xml_text(case.text)
    if not cases:
        ElementTree.SubElement(suite, "testcase", {"name": "no violation", "classname": "gcaudit", "time": "0"})
    ElementTree.SubElement(suite, "system-out").text = _xml_text(said)
    ElementTree.SubElement(suite, "system-err")
    suites = ElementTree.Element("testsuites")
    suites.append(suite)
    return '<?xml version="1.0" encoding="UTF-8"?>\n%s\n' % ElementTree.tostring(suites, encoding="unicode")

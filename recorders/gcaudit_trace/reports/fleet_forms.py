"""A fleet as an HTML page, as JUnit XML and as SARIF, as gcaudit-view shows one heap."""
from typing import Any, Dict

from .fleet import Fleet, InFleet
from .html_page import folded, page_of
from .junit import Case, suite_of
from .sarif import place_of, result_of, run_of


def page(fleet: Fleet) -> str:
    """The whole page: the heaps that could not be audited, then the groups."""
    groups = (
        folded(one.title, one.notes, one.lines + one.by_label, one.group.sample.paths, place == 0)
        for place, one in enumerate(fleet.groups)
    )
    return page_of(fleet.title, ["could not be audited: " + why for _, why in fleet.failures], groups)


def junit(fleet: Fleet) -> str:
    """JUnit XML: a failed test for each group, and an error for each heap that could not be audited."""
    cases = [
        Case(one.name, one.group.kind, one.title, "\n".join(one.notes + one.lines + one.by_label))
        for one in fleet.groups
    ]
    cases += [
        Case(source.path, "heap", "could not be audited: " + why, why, is_error=True) for source, why in fleet.failures
    ]
    return suite_of(cases, fleet.title)


def sarif(fleet: Fleet) -> str:
    """SARIF: a result for each group, and a notification for each heap that could not be audited."""
    notifications = [
        {
            "level": "error",
            "message": {"text": "could not be audited: " + why},
            "locations": [{"physicalLocation": place_of(source.path)}],
        }
        for source, why in fleet.failures
    ]
    invocation: Dict[str, Any] = {"executionSuccessful": not notifications}
    if notifications:
        invocation["toolExecutionNotifications"] = notifications
    return run_of([_result(fleet, one) for one in fleet.groups], invocations=[invocation])


def _result(fleet: Fleet, one: InFleet) -> Dict[str, Any]:
    path = fleet.sources[one.group.sample.place].path
    text = "%s (%s). %s" % (one.title, "; ".join(one.notes), " | ".join(one.lines))
    properties: Dict[str, Any] = {"heaps": len(one.group.heaps), "byLabel": one.by_label}
    if one.kept is not None:
        properties["keptAlone"] = one.kept._asdict()
    return {
        **result_of(one.group.kind, one.group.type_name, one.name, path, text),
        "occurrenceCount": one.times,
        "properties": properties,
    }

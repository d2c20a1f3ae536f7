"""SARIF 2.1.0, in which a group of a view is a result."""
import json
import os
import urllib.parse
from typing import TYPE_CHECKING, Any, Dict, List

from ..traces.names import printable
from .groups import lasting_name

if TYPE_CHECKING:
    from .view import Shown, View

_RULES = {
    "dead": "An object that was asserted dead is reached.",
    "instances": "A type has more objects than its limit.",
    "unshared": "An object that was asserted unshared has more than one reference.",
    "ownedby": "An object outlives its owner's hold on it.",
    "unknown": "An assertion is violated.",
}
_SCHEMA = "https://json.schemastore.org/sarif-2.1.0.json"


def sarif(view: "View") -> str:
    """SARIF of a view: a result for each group."""
    return run_of([_result(shown, view.trace) for shown in view.shown])


def run_of(results: List[Dict[str, Any]], **more: Any) -> str:
    """SARIF: a run of gcaudit with a rule for each assertion, these results, and what `more` there is to say of the run."""
    rules = [{"id": kind, "shortDescription": {"text": text}} for kind, text in _RULES.items()]
    run = {
        "tool": {"driver": {"name": "gcaudit", "rules": rules}},
        "columnKind": "unicodeCodePoints",
        "results": results,
        **more,
    }
    return json.dumps({"$schema": _SCHEMA, "version": "2.1.0", "runs": [run]}, indent=1) + "\n"


def place_of(path: str) -> Dict[str, Any]:
    """Where the file of a heap is, as SARIF says it."""
    uri = urllib.parse.quote(os.path.relpath(path).replace(os.sep, "/") if os.path.exists(path) else path)
    return {"artifactLocation": {"uri": uri}, "region": {"startLine": 1}}


def result_of(kind: str, type_name: str, lasting: str, path: str, text: str) -> Dict[str, Any]:
    """What every result has: its rule, what it says, the file of its heap, and a name that is the same from run to run."""
    return {
        "ruleId": kind,
        "ruleIndex": list(_RULES).index(kind),
        "level": "error",
        "message": {"text": printable(text)},
        "locations": [
            {
                "physicalLocation": place_of(path),
                "logicalLocations": [{"fullyQualifiedName": type_name, "kind": "type"}],
            }
        ],
        "partialFingerprints": {"typeAndPath/v1": printable(lasting)},
    }


def _result(shown: "Shown", trace: str) -> Dict[str, Any]:
    group = shown.group
    text = "%s (%s). %s" % (shown.title, "; ".join(shown.notes), " | ".join(shown.paths))
    return {
        **result_of(group.kind, group.type_name, lasting_name(group), trace, text),
        "occurrenceCount": max(len(group.verdicts), 1),
        "properties": {"keptAlone": shown.kept._asdict()} if shown.kept is not None else {},
    }

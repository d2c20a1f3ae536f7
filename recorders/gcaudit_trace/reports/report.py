"""The report of gcaudit line by line, with the slots named by the labels that the trace has."""
import json
import re
from typing import Any, Callable, Dict, Iterable, Iterator, List, NamedTuple, Optional, Set, Tuple

from ..graphs.path import MORE, Path, Step

_READ_AT_A_TIME = 1 << 16
_NUMBERS = re.compile(r"\d+")
_MOST_IN_EXPRESSION = 4096  # of more numbers an expression takes long to make
# How lines begin that tell of one object, the expression for its number being between the two: as the recorders write them, and as gcsnap does.
_OF_OBJECT = (
    (r'\{"op":"(?:store","at|alloc","id)":', ""),
    (r'\{"at":', r'[0-9]*,"op":"store"'),
    (r'\{"id":', r'[0-9]*,"op":"alloc"'),
)
_NEVER_NAMED = r'\{"op":"(?:set-weak"|assert-|start-region")'  # and those that tell no type, no label and no root
_HEADS = (
    ("dead", re.compile(r"gc (?P<collection>\d+) dead (?P<number>\d+) (?P<type>.*)", re.DOTALL)),
    (
        "unshared",
        re.compile(r"gc (?P<collection>\d+) unshared (?P<number>\d+) (?P<type>.*) refs (?P<count>\d+)", re.DOTALL),
    ),
    (
        "ownedby",
        re.compile(
            r"gc (?P<collection>\d+) ownedby (?P<number>\d+) (?P<type>.*) owner (?P<owner>\d+)(?P<gone> gone)?",
            re.DOTALL,
        ),
    ),
    (
        "instances",
        re.compile(
            r"gc (?P<collection>\d+) instances (?P<type>.*) limit (?P<limit>\d+) found (?P<count>\d+)", re.DOTALL
        ),
    ),
)


class Verdict(NamedTuple):
    """A violation: what was asserted, of which object (0 for instances) and type, and the paths that the report has."""

    kind: str
    collection: int
    number: int
    type_name: str
    count: int  # type: ignore[assignment]  # references, or objects found
    limit: int
    owner: int
    owner_gone: bool
    paths: Tuple[Path, ...]
    line: str  # with the slots named


class Report(NamedTuple):
    """The report with its slots named, and its violations."""

    named: str
    verdicts: List[Verdict]


def read_report(report: str, trace: str, at: Callable[[int], None] = lambda done: None) -> Report:
    """Reads a report with the labels of its trace. `at` is told now and then how many bytes of the trace were read."""
    lines = report.split("\n")
    of_collection: Dict[int, List[int]] = {}
    for place, line in enumerate(lines):
        words = line.split(" ", 3)
        if words[0] == "gc" and len(words) == 4 and words[2] not in ("live", "cleared"):
            of_collection.setdefault(int(words[1]), []).append(place)
    verdicts: List[Verdict] = []
    if of_collection:
        wanted = {
            int(n)
            for places in of_collection.values()
            for place in places
            for n in _NUMBERS.findall(lines[place])
            if len(n) < 11
        }
        heap, collection, last = _Labels(wanted), 0, max(of_collection)
        for told in _lines_about(trace, wanted, at):
            if heap.read(told):
                collection += 1
                for place in of_collection.get(collection, ()):
                    verdict = _verdict(lines[place], heap)
                    lines[place] = verdict.line
                    verdicts.append(verdict)
                if collection == last:
                    break
    return Report("\n".join(lines), verdicts)


def _lines_about(trace: str, wanted: Set[int], at: Callable[[int], None]) -> Iterator[bytes]:
    """The lines of a trace that aren't empty, but for the plain ones of which an expression tells that they are about another object."""
    found, done, rest = _lines_finder(wanted), 0, b"\n"
    with open(trace, "rb", buffering=0) as file:
        while True:
            some = file.read(_READ_AT_A_TIME)
            block = rest + some
            end = block.rfind(b"\n") if some else len(block)
            yield from filter(bytes.strip, found(block, 0, end))
            if not some:
                return
            rest = block[end:]
            done += len(some)
            at(done)


def _lines_finder(wanted: Set[int]) -> Callable[[bytes, int, int], Iterable[bytes]]:
    """Finds between two places of a text, where each line comes behind a line end, those that may be about one of the objects, or a root or a collection.

    An object has millions of neighbours in a trace, and a step of Python for each of their lines would take longer than gcaudit itself.
    """
    if len(wanted) <= _MOST_IN_EXPRESSION:
        other = r"(?!(?:%s)(?![0-9]))[0-9]" % _one_of(wanted)
        about_others = "|".join([before + other + behind for before, behind in _OF_OBJECT] + [_NEVER_NAMED])
        return re.compile((r"\n(?!%s)[^\n]*" % about_others).encode()).findall
    about_one = "|".join(before + "([0-9]+)" + behind.replace("[0-9]*", "") for before, behind in _OF_OBJECT)
    split = re.compile((r"\n(?!%s)(?=(?:%s)?)([^\n]*)" % (_NEVER_NAMED, about_one)).encode()).findall
    numbers = {b"%d" % number for number in wanted}
    return lambda text, start, end: [
        line for *found, line in split(text, start, end) if not any(found) or numbers.intersection(found)
    ]


def _one_of(numbers: Iterable[int]) -> str:
    """An expression for the numbers, in which each digit is looked at once."""
    by_digit: Dict[str, Any] = {}
    for number in numbers:
        at = by_digit
        for digit in str(number):
            at = at.setdefault(digit, {})
        at[""] = {}

    def expression(at: Dict[str, Any]) -> str:
        further = "|".join(digit + expression(more) for digit, more in at.items() if digit)
        return "(?:%s)%s" % (further, "?" if "" in at else "") if further else ""

    return expression(by_digit)


class _Labels:
    """The types and the labels of slots of some objects, as a trace is read line by line."""

    def __init__(self, wanted: Set[int]) -> None:
        self._wanted = wanted
        self.types: Dict[int, str] = {}
        self.labels: Dict[Tuple[int, int], str] = {}
        self.roots: Dict[str, int] = {}

    def read(self, line: bytes) -> bool:
        """Takes a line; the answer is whether it is a collection."""
        event = json.loads(line)
        op = event["op"]
        if op == "store":
            if event["at"] in self._wanted:
                label = event.get("label")
                self.labels[event["at"], event["slot"]] = label if isinstance(label, str) else ""
        elif op == "alloc":
            if event["id"] in self._wanted:
                self.types[event["id"]] = event["type"]
        elif op == "root":
            self.roots[event["name"]] = event["to"]
        return op == "collect"


def _verdict(line: str, heap: _Labels) -> Verdict:
    """The violation that a line tells, with its slots named; where it can't be read with certainty, without paths."""
    for at, has_paths in _starts(line):
        texts = _paths(line[at:]) if has_paths else []
        paths = [path for path in (_path(text, heap) for text in texts) if path is not None]
        if len(paths) == len(texts):
            for kind, head in _HEADS:
                found = head.fullmatch(line[: at - 2])
                if found is not None:
                    shown = line[:at] + " | ".join(map(str, paths)) if has_paths else line
                    return _made(kind, found.groupdict(), tuple(paths), shown)
    return Verdict("unknown", int(line.split(" ", 2)[1]), 0, "", 0, 0, 0, False, (), line)


def _made(kind: str, words: Dict[str, Optional[str]], paths: Tuple[Path, ...], line: str) -> Verdict:
    def number(name: str) -> int:
        return int(words.get(name) or 0)

    return Verdict(
        kind,
        number("collection"),
        number("number"),
        words["type"] or "",
        number("count"),
        number("limit"),
        number("owner"),
        bool(words.get("gone")),
        paths,
        line,
    )


def _starts(line: str) -> Iterator[Tuple[int, bool]]:
    """Where the paths of a line may begin: after each ": " that a root or an owner follows, or that says that they are left out."""
    if line.endswith(": path left out"):
        yield len(line) - len("path left out"), False
    place = line.find(": ")
    while place >= 0:
        if line.startswith(("root ", "owner "), place + 2):
            yield place + 2, True
        place = line.find(": ", place + 1)


def _paths(text: str) -> List[str]:
    """An unshared line has two paths, with a bar between them."""
    for bar in re.finditer(r" \| (?=root |owner )", text):
        return [text[: bar.start()], text[bar.end() :]]
    return [text]


def _path(text: str, heap: _Labels) -> Optional[Path]:
    """The path with its slots named. None where it isn't one by what the trace says of its objects."""
    found = _path_head(text, heap)
    if found is None:
        return None
    root, number, kind, rest = found
    steps: List[Step] = []
    holder: Optional[int] = number
    skipped = 0
    while rest:
        left_out = re.match(r" \.\.\. (\d+) steps \.\.\.", rest)
        if left_out:
            skipped, rest, holder = int(left_out.group(1)), rest[left_out.end() :], None
            continue
        step = re.match(r" \[(\d+)\] -> (\d+) ", rest)
        if step is None:
            return None
        slot, held = int(step.group(1)), int(step.group(2))
        held_type = heap.types.get(held)
        if held_type is None or not rest.startswith(held_type, step.end()):
            return None
        label = "" if holder is None else heap.labels.get((holder, slot), "")
        if label != MORE:
            steps.append(Step(label or "[slot %d]" % slot, held, held_type, skipped))
            skipped = 0
        rest, holder = rest[step.end() + len(held_type) :], held
    return Path(root, number, kind, tuple(steps))


def _path_head(text: str, heap: _Labels) -> Optional[Tuple[Optional[str], int, str, str]]:
    """The start of a path, `root NAME -> ID TYPE` or `owner ID TYPE`: the name, the object, its type, and what follows."""
    owner = re.match(r"owner (\d+) ", text)
    if owner:
        number = int(owner.group(1))
        kind = heap.types.get(number)
        if kind is None or not text.startswith(kind, owner.end()):
            return None
        return None, number, kind, text[owner.end() + len(kind) :]
    for name, to in heap.roots.items():
        kind = heap.types.get(to) if to is not None else None
        head = "root %s -> %s %s" % (name, to, kind)
        if kind is not None and text.startswith(head) and text[len(head) : len(head) + 1] in ("", " "):
            return name, to, kind, text[len(head) :]
    return None

"""Violations of many heaps of one program, grouped as one: which group in how many heaps, since when, and what it keeps in all."""
from collections import Counter
from typing import Dict, Iterable, List, NamedTuple, Optional, Sequence, Tuple

from ..graphs.path import Path
from .groups import counted, lasting_name
from .view import SENTENCES, Kept, Shown, View


class Source(NamedTuple):
    """A heap of the fleet: its file as it was named, and the version or the hour that it stands for."""

    path: str
    label: str


class InHeap(NamedTuple):
    """What one heap has of a group: violations, the highest count and its limit where there is one, what they keep, and what hangs from them."""

    times: int
    highest: int
    limit: int
    kept: Optional[Kept]
    hanging: Dict[str, int]  # how many objects of each type


class Sample(NamedTuple):
    """Paths to an object of a group in the first heap that has it, by its place in the fleet."""

    place: int
    paths: Tuple[Path, ...]


class Group(NamedTuple):
    """Violations of one kind, of one type and with one shape of path, in the heaps at these places."""

    kind: str
    type_name: str
    sample: Sample
    heaps: Dict[int, InHeap]


class Part(NamedTuple):
    """What some heaps of a fleet have, by their places: groups by lasting names, which could be audited, and why others couldn't."""

    groups: Dict[str, Group]
    audited: Dict[int, bool]  # whether the heap is a dump; else it is a trace
    failed: Dict[int, str]

    def add(self, other: "Part") -> None:
        """Adds what other heaps have. The order makes no difference, and neither does a heap that comes twice."""
        self.audited.update(other.audited)
        self.failed.update(other.failed)
        for name, group in other.groups.items():
            known = self.groups.get(name)
            if known is None:
                self.groups[name] = group._replace(heaps=dict(group.heaps))
                continue
            known.heaps.update(group.heaps)
            if group.sample.place < known.sample.place:
                self.groups[name] = known._replace(sample=group.sample)


def merged(parts: Iterable[Part]) -> Part:
    """The parts as one."""
    whole = Part({}, {}, {})
    for part in parts:
        whole.add(part)
    return whole


def part_of_view(place: int, view: View, is_dump: bool) -> Part:
    """What one heap has. A group that a trace has at several collections counts once, where it keeps most."""
    groups: Dict[str, Group] = {}
    for shown in view.shown:  # those that keep most come first
        found = shown.group
        sample = Sample(place, found.sample.paths)
        groups.setdefault(lasting_name(found), Group(found.kind, found.type_name, sample, {place: _in_heap(shown)}))
    return Part(groups, {place: is_dump}, {})


def _in_heap(shown: Shown) -> InHeap:
    group = shown.group
    return InHeap(
        len(group.verdicts),
        max(verdict.count for verdict in group.verdicts),
        group.sample.limit,
        shown.kept,
        dict(Counter(verdict.type_name for verdict in group.hanging)),
    )


class Fleet:
    """All heaps of a fleet in their order, and what they have."""

    def __init__(self, sources: Sequence[Source], part: Part) -> None:
        self.sources = sources
        self.part = part
        for place, source in enumerate(sources):
            if place not in part.audited and place not in part.failed:
                part.failed[place] = "%s: no result came" % source.path
        self.labels = list(dict.fromkeys(source.label for source in sources))
        self._places_of_labels = {label: place for place, label in enumerate(self.labels)}
        self._audited = Counter(sources[place].label for place in part.audited)
        groups = [InFleet(self, name, group) for name, group in part.groups.items()]
        self.groups = sorted(groups, key=lambda one: one.order)

    @property
    def title(self) -> str:
        """How many groups, and how many heaps have some, have none, or aren't known."""
        heaps = len(self.sources)
        violating = len({place for group in self.part.groups.values() for place in group.heaps})
        said = "%s of violations; %s: %d with violations, %d without" % (
            _number(len(self.groups), "group"),
            _number(heaps, "heap"),
            violating,
            len(self.part.audited) - violating,
        )
        return said + (", %d could not be audited" % len(self.part.failed) if self.part.failed else "")

    @property
    def failures(self) -> List[Tuple[Source, str]]:
        """The heaps that could not be audited, and why, in their order."""
        return [(self.sources[place], why) for place, why in sorted(self.part.failed.items())]

    @property
    def status(self) -> int:
        """1: some heap has a violation. 2: none has, and not all could be audited. 0: all were audited, and none has."""
        return 1 if self.groups else 2 if self.part.failed else 0

    def text(self) -> str:
        lines = []
        for group in self.groups:
            lines.append("%s (%s)" % (group.title, "; ".join(group.notes)))
            lines += ["    " + line for line in group.lines]
        lines += ["could not be audited: " + why for _, why in self.failures]
        return "\n".join(lines + [self.title]) + "\n"

    def period(self, places: Iterable[int]) -> str:
        """Since when heaps at these places are there, and until when if it isn't to the end. Empty where all heaps have one label."""
        if len(self.labels) == 1:
            return ""
        found = sorted(places)
        first, last = (self._places_of_labels[self.sources[place].label] for place in (found[0], found[-1]))
        newest = max(self._places_of_labels[label] for label in self._audited)
        is_open = first > 0 and not self._audited[self.labels[first - 1]]
        start = self.labels[first] + (" (the first)" if first == 0 else " or earlier" if is_open else "")
        if last == newest:
            return "since " + start
        return "only in " + start if first == last and not is_open else "from %s to %s" % (start, self.labels[last])

    def by_label(self, places: Iterable[int]) -> List[str]:
        """Which labels the heaps at these places have, and how many of the audited ones of each."""
        found = Counter(self.sources[place].label for place in sorted(places))
        return ["%s: %d of %s" % (label, found[label], _number(self._audited[label], "heap")) for label in found]


class InFleet(NamedTuple):
    """A group, as it is shown."""

    fleet: Fleet
    name: str  # which is the same from run to run
    group: Group

    @property
    def order(self) -> Tuple[int, int, int, str]:
        """What keeps most comes first, then what most heaps have."""
        kept = self.kept or Kept(0, 0)
        return -(kept.bytes or 0), -kept.objects, -len(self.group.heaps), self.name

    @property
    def times(self) -> int:
        return sum(one.times for one in self.group.heaps.values())

    @property
    def kept(self) -> Optional[Kept]:
        """What the objects of all heaps keep; its bytes are known where they are in each."""
        found = [one.kept for one in self.group.heaps.values() if one.kept is not None]
        if not found:
            return None
        sizes = [one.bytes for one in found if one.bytes is not None]
        return Kept(sum(one.objects for one in found), sum(sizes) if len(sizes) == len(found) else None)

    @property
    def title(self) -> str:
        """What is wrong, in one line."""
        title = "%s %s" % (self.group.type_name or "an assertion", SENTENCES[self.group.kind])
        if self.group.kind == "instances":
            most = max(self.group.heaps.values(), key=lambda one: one.highest)
            title += ": up to %d, and the limit is %d" % (most.highest, most.limit)
        return title

    @property
    def notes(self) -> List[str]:
        """What else there is to say, a sentence each."""
        heaps, times = self.group.heaps, self.times
        where = "in %d of %s" % (len(heaps), _number(len(self.fleet.part.audited), "audited heap"))
        has_times = self.group.kind != "instances" and times > 1
        found = ["%d times %s" % (times, where) if has_times else where]
        period = self.fleet.period(heaps)
        if period:
            found.append(period)
        if self.group.kind == "unshared":
            found.append("up to %d references" % max(one.highest for one in heaps.values()))
        if self.kept is not None:
            found.append("%s %s in all" % ("they keep" if has_times else "keeps", self.kept))
        hanging: Counter = sum((Counter(one.hanging) for one in heaps.values()), Counter())
        if hanging:
            found.append(
                "%d more that must be dead hang from %s: %s"
                % (sum(hanging.values()), "them" if times > 1 else "it", counted(hanging.elements()))
            )
        return found

    @property
    def lines(self) -> List[str]:
        """The paths of the sample, with the heap that has them."""
        path = self.fleet.sources[self.group.sample.place].path
        return ["in %s: %s" % (path, one) for one in self.group.sample.paths or ("path left out",)]

    @property
    def by_label(self) -> List[str]:
        return self.fleet.by_label(self.group.heaps)


def _number(count: int, name: str) -> str:
    return "%d %s%s" % (count, name, "" if count == 1 else "s")

"""Limits of how many objects of a class there may be, its subclasses counted or not."""
import weakref
from typing import Any, Dict, Iterable, List, Optional

from gcaudit_trace import legal_name

from .contents import has_own_names, module_of, qualified_name, type_name
from .notices import Place, place_of_program


class Limit:
    """At most so many objects of a class. `name` is the type of the trace whose objects gcaudit counts.

    Where subclasses count too, each of the objects has one of a type of its own beside it, and these are counted.
    """

    __slots__ = (
        "_cls",
        "_cls_name",
        "most",
        "subclasses",
        "reached_only",
        "_place",
        "_marker",
        "_markers",
        "_was_said",
    )

    def __init__(self, cls: type, most: int, subclasses: bool, reached_only: bool) -> None:
        self._cls = weakref.ref(cls)
        self._cls_name = type_name(cls)
        self.most = most
        self.subclasses = subclasses
        self.reached_only = reached_only
        self._place: Place = place_of_program()
        # Objects that have names of their own in the trace are counted by what stands beside them too.
        self._marker = _marker_of(cls) if subclasses or has_own_names(cls) else None
        self._markers: Dict[int, Any] = {}
        self._was_said = False

    @property
    def name(self) -> str:
        return legal_name(self._cls_name if self._marker is None else self._cls_name + "+")

    def kinds(self) -> List[type]:
        """The classes whose objects count."""
        cls = self._cls()
        if cls is None:
            return []
        return [cls, *subclasses_of(cls)] if self.subclasses else [cls]

    def marker(self, obj: Any) -> Any:
        """What stands beside an object, and is counted in its place."""
        marker = self._markers.get(id(obj))
        if marker is None:
            assert self._marker is not None
            marker = self._markers[id(obj)] = self._marker()
        return marker

    def has_markers(self) -> bool:
        """Whether other objects are counted in place of those of the class."""
        return self._marker is not None

    def is_marker(self, obj: Any) -> bool:
        return type(obj) is self._marker

    def forget(self, addresses: Iterable[int]) -> None:
        """The objects that had these addresses are gone."""
        for address in list(self._markers.keys() - addresses):
            del self._markers[address]

    def say_of_subclasses(self, counts: Dict[int, int]) -> None:
        """Warns once where the class has no objects and its subclasses have some, by the numbers of objects of each type."""
        cls = self._cls()
        if cls is None or self.subclasses or self._was_said or counts.get(id(cls)):
            return
        found = [(type_name(one), counts[id(one)]) for one in subclasses_of(cls) if counts.get(id(one))]
        if found:
            self._was_said = True
            self._place.warn(
                "no object of exactly %s is there, and %d of its subclasses (%s); subclasses=True counts them too"
                % (self._cls_name, sum(count for _, count in found), ", ".join("%s %d" % one for one in sorted(found)))
            )


def subclasses_of(cls: type) -> List[type]:
    """All classes that are derived from it, each once."""
    found: Dict[int, type] = {}
    work = [cls]
    while work:
        for one in type.__subclasses__(work.pop()):
            if id(one) not in found:
                found[id(one)] = one
                work.append(one)
    return list(found.values())


def _marker_of(cls: type) -> type:
    """A class whose objects have the name of the class with a plus sign as their type in the trace."""
    names = {"__slots__": ("__weakref__",), "__module__": module_of(cls), "__qualname__": qualified_name(cls) + "+"}
    return type("Counted", (), names)


class Limits:
    """The limits of a recorder, one for each type of the trace."""

    def __init__(self) -> None:
        self._limits: Dict[str, Limit] = {}

    def add(self, limit: Limit) -> None:
        self._limits[limit.name] = limit

    def counted(self) -> Dict[int, List[Limit]]:
        """By the address of each type the limits for which each of its objects has another one beside it."""
        return self._by_kind(limit for limit in self._limits.values() if limit.has_markers())

    def sought(self) -> Dict[int, List[Limit]]:
        """By the address of each type the limits for which objects count that no root reaches."""
        return self._by_kind(limit for limit in self._limits.values() if not limit.reached_only)

    @staticmethod
    def _by_kind(limits: Iterable[Limit]) -> Dict[int, List[Limit]]:
        found: Dict[int, List[Limit]] = {}
        for limit in limits:
            for kind in limit.kinds():
                found.setdefault(id(kind), []).append(limit)
        return found

    def has_marker(self, obj: Any) -> bool:
        return any(limit.is_marker(obj) for limit in self._limits.values())

    def say_of_subclasses(self, counts: Dict[int, int]) -> None:
        for limit in self._limits.values():
            limit.say_of_subclasses(counts)

    def forget_all_but(self, addresses: Iterable[int]) -> None:
        """Only the objects at these addresses are still there."""
        for limit in self._limits.values():
            limit.forget(addresses)

    def __bool__(self) -> bool:
        return bool(self._limits)

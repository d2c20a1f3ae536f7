"""What is asserted of an object, and how the object is referred to meanwhile."""
import itertools
import sys
import weakref
from typing import Any, Optional, Tuple

from . import collector
from .contents import shape_of


class Hold:
    """Refers to an object: weakly where its type allows it; else the object itself is held."""

    __slots__ = ("_weak", "_object", "serial")
    _serials = itertools.count(1)

    def __init__(self, obj: Any) -> None:
        self.serial = next(self._serials)
        self._object: Any = None
        self._weak: Optional[weakref.ref] = None
        try:
            self._weak = weakref.ref(obj)
        except TypeError:
            self._object = obj

    def get(self) -> Any:
        return self._object if self._weak is None else self._weak()

    def holds_itself(self) -> bool:
        return self._weak is None and self._object is not None

    def references(self) -> int:
        """How many references there are to the object that is held itself."""
        return sys.getrefcount(self._object)

    def drop(self) -> None:
        if collector.garbage is not None:
            collector.aside.append(self._object)  # a forked child frees nothing
        self._object = None

    def forget(self) -> None:
        """In a forked child, where the object is garbage: it is as if it had been freed."""
        collector.aside.append(self._object)
        self._object = self._weak = None

    def take(self, obj: Any) -> None:
        self._object = obj


class Assertion:
    """Something asserted of an object: "dead", "unshared" or "owned". In a region it counts only where it is reached."""

    __slots__ = ("kind", "target", "owner", "owner_type", "in_region", "written")

    def __init__(self, kind: str, target: Any, owner: Any = None, in_region: bool = False) -> None:
        self.kind = kind
        self.target = Hold(target)
        self.owner = None if owner is None else Hold(owner)
        self.owner_type = "" if owner is None else shape_of(owner).name
        self.in_region = in_region
        self.written: Optional[Tuple[int, ...]] = None  # the ids that the trace has this assertion of


_probe = Hold(())
_probe.take(object())
OWN_REFERENCES = _probe.references() - 1  # those of the counting itself
del _probe

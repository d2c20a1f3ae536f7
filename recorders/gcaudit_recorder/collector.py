"""Python's own collector: holding it back, and what it tracks."""
import gc
from typing import Any, Dict, FrozenSet, List, NamedTuple, Optional


class NoAutomaticCollection:
    """Python's collector would run again and again over the many objects that a walk makes."""

    __slots__ = ("_was_enabled",)

    def __enter__(self) -> None:
        self._was_enabled = gc.isenabled()
        gc.disable()

    def __exit__(self, *error: Any) -> None:
        if self._was_enabled:
            gc.enable()


class Garbage(NamedTuple):
    """What nothing leads to, in a forked child, where Python's collector doesn't run."""

    addresses: FrozenSet[int]
    references: Dict[int, int]  # by address, how many references garbage has to an object


garbage: Optional[Garbage] = None  # in a forked child only
aside: List[Any] = []  # there, what was let go and must not be freed


def is_garbage(obj: Any) -> bool:
    return garbage is not None and id(obj) in garbage.addresses


def references_of_garbage(obj: Any) -> int:
    return 0 if garbage is None else garbage.references.get(id(obj), 0)


def tracked_objects(frozen: bool = False) -> List[Any]:
    """All objects that Python's collector tracks, but for garbage of a forked child."""
    if garbage is not None:
        addresses = garbage.addresses
        return [obj for obj in gc.get_objects() if id(obj) not in addresses]
    if not frozen:
        return gc.get_objects()
    gc.unfreeze()
    found = gc.get_objects()
    gc.freeze()
    return found

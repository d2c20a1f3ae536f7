"""Which classes the JVM never unloads, which references lead to the others, and what roots all of them have.

An object keeps its class alive, a class its loader, and a loader the classes that it defined. A dump says the second of these alone.
"""
import re
from typing import Callable, Dict, List, NamedTuple, Sequence, Set, Tuple

from gcaudit_trace.traces.limits import MOST_ROOTS

from .reader import ROOTS, ClassDump, Root

CLASS_ROOT = next(tag for tag, (kind, _, _) in ROOTS.items() if kind == "class")
DEFINED, ARRAY, ELEMENT = "(defined class)", "(array class)", "(element class)"
# The loaders of the application and of the platform, which the JVM keeps as long as it runs, of Java 9 and newer, and of Java 8.
_LASTING_LOADERS = frozenset(
    {
        "jdk.internal.loader.ClassLoaders$AppClassLoader",
        "jdk.internal.loader.ClassLoaders$PlatformClassLoader",
        "sun.misc.Launcher$AppClassLoader",
        "sun.misc.Launcher$ExtClassLoader",
    }
)
_IS_HIDDEN = re.compile(
    r"[+/.]0x[0-9a-f]+$"
)  # how names of hidden classes end, which may be unloaded before their loader

Reference = Tuple[str, int]  # label and identifier


def is_thread(class_id: int, classes: Dict[int, ClassDump], name_of: Callable[[int], str]) -> bool:
    """Whether objects of the class are threads, as far as is known by now."""
    seen: Set[int] = set()
    while class_id in classes and class_id not in seen:
        if name_of(class_id) == "java.lang.Thread":
            return True
        seen.add(class_id)
        class_id = classes[class_id].superclass
    return False


class Relations(NamedTuple):
    """What the classes of a dump have to do with objects, loaders and roots, by their identifiers."""

    led_to: Set[int]  # the classes to which their objects lead
    defined: Dict[int, List[Reference]]  # by the loader the classes that it defined
    more_held: Dict[
        int, List[Reference]
    ]  # what a class leads to besides what the dump says: its array class, or its elements' class
    roots: List[Root]  # roots besides those that the dump says
    is_rooted: Set[int]  # the classes that a root names
    lasting_loaders: Set[int]
    hidden: int  # how many classes are hidden


def relations_of(
    classes: Dict[int, ClassDump], name_of: Callable[[int], str], class_of: Callable[[int], str], roots: Sequence[Root]
) -> Relations:
    """How the classes hang together. `name_of` answers the name of a class, `class_of` that of an object's class.

    Classes of the loaders that last have roots of their own, as long as gcaudit takes so many. An object doesn't lead to such a
    class, nor to its array class: these are reached in any case, and on a shorter way.
    """
    sticky = {root.target for root in roots if root.kind == CLASS_ROOT}
    loaders = {found.loader for found in classes.values()} - {0}
    lasting_loaders = {loader for loader in loaders if class_of(loader) in _LASTING_LOADERS}
    lasting = {
        number
        for number, found in classes.items()
        if number in sticky
        or (found.loader == 0 or found.loader in lasting_loaders)
        and not _IS_HIDDEN.search(name_of(number))
    }
    has_room = len(roots) + len(lasting) <= MOST_ROOTS
    by_name = {(name_of(number), found.loader): number for number, found in classes.items()}
    defined: Dict[int, List[Reference]] = {}
    more_held: Dict[int, List[Reference]] = {}
    rooted = []
    for number, found in classes.items():
        name = name_of(number)
        element = by_name.get((name[:-2], found.loader)) if name.endswith("[]") else None
        if element is not None:
            more_held.setdefault(element, []).append((ARRAY, number))
            more_held.setdefault(number, []).append((ELEMENT, element))
        elif number in lasting and (has_room or not found.loader):
            rooted.append(number)
        elif found.loader:
            defined.setdefault(found.loader, []).append((DEFINED, number))
    new_roots = [Root(CLASS_ROOT, number, 0, 0) for number in rooted if number not in sticky]
    hidden = sum(_IS_HIDDEN.search(name_of(number)) is not None for number in classes)
    return Relations(
        set(classes) - lasting, defined, more_held, new_roots, sticky.union(rooted), lasting_loaders, hidden
    )

"""Who holds an object that no root of a recorder leads to: a chain of holders, found backwards by gc.get_referrers."""
import gc
import sys
import threading
import types
from typing import Any, Dict, Iterable, Iterator, List, NamedTuple, Optional, Set, Tuple

from .collector import is_garbage
from .contents import PLAIN, Label, class_dict, contents, is_own_frame, locals_of, object_name, shape_of

NOBODY = "no object that Python's collector knows: the interpreter, C code, or a running call"
_MOST_LEVELS = 40
_MOST_OBJECTS = 20000


# In a forked child, where Python doesn't know other threads any longer: the innermost frame of each, by its number.
frames_of_threads: Optional[Dict[int, types.FrameType]] = None


class Link(NamedTuple):
    """A holder, and the label of the place where it holds the next one, or at last the object in question."""

    name: str
    label: str


def running_frames() -> Iterator[Tuple[str, types.FrameType]]:
    """The frames of all threads with the names of the threads, but for the recorder's own."""
    names = {thread.ident: thread.name for thread in threading.enumerate()}
    innermost_frames = sys._current_frames()
    if frames_of_threads is not None:
        innermost_frames = {**frames_of_threads, **innermost_frames}
    for ident, innermost in list(innermost_frames.items()):
        frame: Optional[types.FrameType] = innermost
        while frame is not None:
            if not is_own_frame(frame):
                yield names.get(ident, "thread %d" % ident), frame
            frame = frame.f_back


class _Search:
    """Goes back from objects to their holders, level by level, until modules and running frames are met."""

    def __init__(self, objects: List[Any], own: Set[int]) -> None:
        self._sought = objects
        self._own = own
        self._nodes: Dict[int, Any] = {id(obj): obj for obj in objects}
        self._held: Dict[int, List[int]] = {}  # by the address of a holder, what it holds of the nodes
        self._locals: Dict[int, Tuple[str, str]] = {}  # by address, the frame and the variable that hold it
        self._anchors: List[int] = []

    def chains(self) -> Dict[int, List[Link]]:
        """By address the chain of each object."""
        self._note_locals()
        found: Dict[int, List[Link]] = {}
        level = [id(obj) for obj in self._sought]
        self._anchors = [address for address in level if self._is_anchor(address)]
        for _ in range(_MOST_LEVELS):
            level = self._level_above(level)
            found = self._from(self._anchors)
            if not level or len(found) == len(self._nodes_sought()) or len(self._nodes) > _MOST_OBJECTS:
                break
        missing = [address for address in self._nodes_sought() if address not in found]
        if missing:
            # A holder that nothing holds that the collector knows; where all hold one another, the object itself.
            held = {below for belows in self._held.values() for below in belows}
            tops = [address for address in self._nodes if address not in held and address not in missing]
            for address, chain in self._from(tops).items():
                found.setdefault(address, chain)
            for address in missing:
                found.setdefault(address, [Link(NOBODY, "(held)")])
        return found

    def _nodes_sought(self) -> Set[int]:
        return {id(obj) for obj in self._sought}

    def _note_locals(self) -> None:
        for thread, frame in running_frames():
            holder = "frame %s:%d (thread %s)" % (frame.f_code.co_name, frame.f_lineno, thread)
            for name, held in locals_of(frame).items():
                if type(held) not in PLAIN:
                    self._locals.setdefault(id(held), (holder, "(local %s)" % name))

    def _is_anchor(self, address: int) -> bool:
        return address in self._locals or isinstance(self._nodes[address], types.ModuleType)

    def _level_above(self, level: List[int]) -> List[int]:
        """The holders of these objects that weren't met yet."""
        below = [self._nodes[address] for address in level]
        wanted = set(level)
        skipped = self._own | {id(below), id(self._nodes), id(self._held), id(self._anchors), id(self._sought)}
        found: List[int] = []
        for holder in gc.get_referrers(*below):
            address = id(holder)
            if address in skipped or _is_own(holder) or is_garbage(holder):
                continue
            held = [one for one in set(map(id, gc.get_referents(holder))) if one in wanted]
            self._held.setdefault(address, []).extend(held)
            if address not in self._nodes:
                self._nodes[address] = holder
                found.append(address)
                if self._is_anchor(address):
                    self._anchors.append(address)
        return found

    def _from(self, tops: Iterable[int]) -> Dict[int, List[Link]]:
        """The shortest chains from these downwards."""
        above: Dict[int, int] = {}
        order = list(dict.fromkeys(tops))
        seen = set(order)
        for address in order:  # grows while it is gone through
            for below in self._held.get(address, ()):
                if below not in seen:
                    seen.add(below)
                    above[below] = address
                    order.append(below)
        return {address: self._chain(address, above) for address in self._nodes_sought() if address in seen}

    def _chain(self, address: int, above: Dict[int, int]) -> List[Link]:
        way = [address]
        while way[-1] in above:
            way.append(above[way[-1]])
        way.reverse()
        objects = [self._nodes[one] for one in way]
        links: List[Link] = []
        if way[0] in self._locals:
            links.append(Link(*self._locals[way[0]]))
        elif not isinstance(objects[0], types.ModuleType):
            links.append(Link(NOBODY, "(held)"))
        place = 0
        while place < len(objects) - 1:
            holder, held = objects[place], objects[place + 1]
            merged = _own_dict(holder)
            if merged is held and place + 2 < len(objects):
                held = objects[place + 2]  # through its __dict__, which stands in no trace
                place += 1
            links.append(Link(object_name(holder, shape_of(holder)), _label(holder, held)))
            place += 1
        return links


def _is_own(holder: Any) -> bool:
    if type(holder) is types.FrameType:
        return is_own_frame(holder)
    return shape_of(holder).left_out


def _own_dict(holder: Any) -> Any:
    """The dict of an object's attributes, as gc.get_referrers tells it; None where it has none."""
    if isinstance(holder, type):
        return gc.get_referents(class_dict(holder))[0]
    shape = shape_of(holder)
    return None if shape.own_dict is None else shape.own_dict.__get__(holder)


def _label(holder: Any, held: Any) -> str:
    label: Label = next((label for label, one in contents(holder, shape_of(holder), True) if one is held), "(held)")
    return "[%d]" % label if isinstance(label, int) else label


def holder_chains(objects: List[Any], own: Set[int]) -> Dict[int, List[Link]]:
    """By the address of each object a chain of holders, from a module, a running frame, or what nothing known holds.

    `own` are the addresses of what refers to the objects for the search itself.
    """
    return _Search(objects, own).chains()

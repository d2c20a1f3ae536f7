"""What the JVM holds in places of which a dump doesn't tell.

A class has fields that no record of a dump shows: its name, what reflection found, and the data that a hidden class was given. In a
dump of live objects the JVM holds, in such a place, all to which no reference leads. In a dump that has garbage too this can't be told
from the garbage. So there is no answer where more is unheld than the classes of the dump can hold.
"""
from array import array
from typing import Callable, Iterable, List, NamedTuple, Sequence

# What any class may hold: its name, what reflection found, and the constants of an enumeration by their names.
OF_ANY_CLASS = frozenset(
    {
        "java.lang.String",
        "java.lang.ref.SoftReference",
        "java.lang.reflect.Constructor",
        "java.util.HashMap",
    }
)
# What a collector writes over garbage that it leaves where it is: no object of the program.
FILLERS = frozenset({"int[]", "java.lang.Object", "jdk.internal.vm.FillerArray", "jdk.internal.vm.FillerObject"})


class Held(NamedTuple):
    """What some objects hold, by codes: the object at a place holds `codes[starts[place]:starts[place + 1]]`."""

    starts: Sequence[int]
    codes: Sequence[int]

    def __len__(self) -> int:
        return len(self.starts) - 1


def gathered(held: Iterable[List[int]], count: int) -> Held:
    """What so many objects hold, one after the other; the last ones may hold nothing."""
    starts, codes = array("Q", [0]), array("i")
    for some in held:
        codes.fromlist(some)
        starts.append(len(codes))
    starts.extend([len(codes)] * (count + 1 - len(starts)))
    return Held(starts, codes)


class Unheld:
    """The objects of a dump to which no reference leads. The codes of kept objects go from 1 up, those of others from -1 down."""

    def __init__(self, kept: Held, left: Held, reached: Iterable[int]) -> None:
        """`reached` are the codes of what roots name, and of what is held weakly."""
        self._kept = kept
        self._left = left
        self._size = 1 + len(kept) + len(left)
        self._seen = bytearray(self._size)  # a code below 0 counts from its end
        self._seen[0] = 1
        self._mark(reached)

    def _held_by(self, code: int) -> Sequence[int]:
        held, place = (self._kept, code - 1) if code > 0 else (self._left, ~code)
        return held.codes[held.starts[place] : held.starts[place + 1]]

    def _mark(self, begins: Iterable[int]) -> None:
        """Marks what these lead to, and they themselves."""
        seen = self._seen
        kept_starts, kept_codes = self._kept.starts, self._kept.codes
        left_starts, left_codes = self._left.starts, self._left.codes
        work = []
        for code in begins:
            if not seen[code]:
                seen[code] = 1
                work.append(code)
        pop, push = work.pop, work.append
        while work:
            code = pop()
            if code > 0:
                some = kept_codes[kept_starts[code - 1] : kept_starts[code]]
            else:
                some = left_codes[left_starts[~code] : left_starts[~code + 1]]
            for to in some:
                if not seen[to]:
                    seen[to] = 1
                    push(to)

    def origins(self, most: int, weight: Callable[[int], int]) -> List[int]:
        """Objects that lead to all others of these; none where they weigh more than `most` together, so that there is garbage."""
        found = self._without_holders()
        if sum(map(weight, found)) > most:
            return []
        self._mark(found)
        # What is left are circles, and what they lead to: a circle to which no other leads comes last in the order of endings.
        for code in reversed(self._endings()):
            if not self._seen[code]:
                found.append(code)
                self._mark([code])
        return found if sum(map(weight, found)) <= most else []

    def _unseen(self) -> List[int]:
        last = len(self._kept)
        return [at if at <= last else at - self._size for at, seen in enumerate(self._seen) if not seen]

    def _without_holders(self) -> List[int]:
        unseen, is_held = self._unseen(), bytearray(self._size)
        for code in unseen:
            for to in self._held_by(code):
                is_held[to] = 1
        return [code for code in unseen if not is_held[code]]

    def _endings(self) -> List[int]:
        """What isn't marked, in the order in which a walk in depth is done with each."""
        met, found = bytearray(self._seen), []
        for first in self._unseen():
            if met[first]:
                continue
            met[first] = 1
            work = [(first, iter(self._held_by(first)))]
            while work:
                code, following = work[-1]
                for to in following:
                    if not met[to]:
                        met[to] = 1
                        work.append((to, iter(self._held_by(to))))
                        break
                else:
                    found.append(code)
                    work.pop()
        return found

"""What the readers of heap dumps are asked for on their command lines: what is written, asserted and kept."""
import argparse
import difflib
from typing import Dict, List, Set, Tuple

from ..commands import command_line
from ..errors import TraceError
from ..traces.limits import MOST_INSTANCES, large_room, usual_room

SHOWN_CLASSES = 8
ADVICE = "; --large writes a trace for gcaudit --large, which takes more"
PLUS = "+"  # behind the name of a class: its subclasses are meant too


def parser_for(program: str, about: str) -> argparse.ArgumentParser:
    """The words that all readers of dumps take."""
    parser = argparse.ArgumentParser(prog=program, description=about)
    parser.add_argument("dump", metavar="DUMP", help="the heap dump")
    parser.add_argument(
        "trace", metavar="TRACE", help="the trace that is written for gcaudit, or the snapshot for gcsnap"
    )
    parser.add_argument(
        "--snapshot",
        action="store_true",
        help="write a heap snapshot instead of a trace; gcsnap to-trace makes a trace from it at any time, "
        "to which you can add assertions. The snapshot has none itself",
    )
    parser.add_argument(
        "--large",
        action="store_true",
        help="write a trace for gcaudit --large, which takes up to 134217728 objects in place of 1048576, and more slots and roots",
    )
    add_wishes(parser)
    command_line.add_version(parser)
    return parser


def add_wishes(parser: argparse.ArgumentParser) -> None:
    """The words that say what is asserted of a dump and what is kept of it."""
    said = parser.add_argument_group(
        "what is asserted (each may be given more than once; CLASS+ means the objects of its subclasses too)"
    )
    said.add_argument("--dead", metavar="CLASS", action="append", default=[], help="no object of the class is reached")
    said.add_argument(
        "--limit", metavar="CLASS=N", action="append", default=[], help="at most N objects of the class are reached"
    )
    said.add_argument(
        "--unshared",
        metavar="CLASS",
        action="append",
        default=[],
        help="each object of the class has one reference at most",
    )
    said.add_argument(
        "--owned-by",
        metavar="OWNER=CLASS",
        action="append",
        default=[],
        help="no object of the class outlives the hold that the one object of the class OWNER has on it: if a root leads to "
        "it past the owner, the owner must lead to it too",
    )
    said.add_argument(
        "--may-be-missing",
        action="store_true",
        help="allow classes and prefixes that the dump doesn't have",
    )
    kept = parser.add_argument_group("what is kept (each may be given more than once)")
    kept.add_argument(
        "--only", metavar="PREFIX", action="append", default=[], help="keep only classes whose names begin with PREFIX"
    )
    kept.add_argument(
        "--without",
        metavar="PREFIX",
        action="append",
        default=[],
        help="leave out classes whose names begin with PREFIX",
    )


def kind_of(asked: argparse.Namespace) -> str:
    """What is written."""
    return "snapshot" if asked.snapshot else "trace"


class Wishes:
    """What is written, what is asserted and what is kept, by the names of classes."""

    def __init__(self, asked: argparse.Namespace, limited: bool = True) -> None:
        self.limited = limited  # no more is kept than there is room for
        self.kind = kind_of(asked)
        # What the program that reads the file takes.
        self.room = large_room() if asked.large else usual_room("" if asked.snapshot else ADVICE)
        if asked.large and asked.snapshot:
            raise TraceError("gcsnap takes no more than gcaudit; --large is for traces")
        self._only = tuple(asked.only)
        self._without = tuple(asked.without)
        self.may_be_missing = asked.may_be_missing
        self.dead = set(asked.dead)
        self.unshared = set(asked.unshared)
        self.limits = dict(self._limit(text) for text in asked.limit)
        self.owners: Dict[str, List[str]] = {}  # the owned classes of each owner class
        for text in asked.owned_by:
            owner, equals, ownee = text.partition("=")
            if not (owner and equals and ownee):
                raise TraceError("--owned-by needs OWNER=CLASS, not %s" % text)
            self.owners.setdefault(owner, []).append(ownee)
        self.owned = {ownee for ownees in self.owners.values() for ownee in ownees}
        # The classes of which something is asserted, as they were named: with a + where that means their subclasses too.
        self.named = self.dead | self.unshared | self.owned | set(self.owners) | set(self.limits)
        self.superclasses: Dict[str, Set[str]] = {}  # the names of each class's superclasses, as far as they are known
        self.counts: Dict[str, int] = {}  # how many objects of each class the dump has
        if asked.snapshot and self.named:
            raise TraceError("a snapshot has no assertions; put them into the trace that gcsnap to-trace makes of it")
        for name in sorted(self.named):
            if not self._is_wanted(without_plus(name)):
                raise TraceError("something is asserted of %s, and it is left out by --only or --without" % name)

    @staticmethod
    def _limit(text: str) -> Tuple[str, int]:
        name, equals, number = text.rpartition("=")
        if not (name and equals and number.isascii() and number.isdigit() and int(number) <= MOST_INSTANCES):
            raise TraceError("--limit needs CLASS=N, not %s" % text)
        return name, int(number)

    def keeps(self, name: str) -> bool:
        """Whether objects of the class are kept. Those of which something is asserted are, whatever was said of subclasses."""
        return self._is_wanted(name) or any(key.endswith(PLUS) for key in self.asserted_of(name))

    def _is_wanted(self, name: str) -> bool:
        return (not self._only or name.startswith(self._only)) and not (
            self._without and name.startswith(self._without)
        )

    def asserted_of(self, name: str) -> List[str]:
        """The names under which something is asserted of the objects of a class."""
        if not self.named:
            return []
        above = self.superclasses.get(name, set()) | {name}
        return sorted(self.named & ({name} | {one + PLUS for one in above}))

    def is_unshared(self, name: str) -> bool:
        """Whether the objects of a class are asserted unshared."""
        return not self.unshared.isdisjoint(self.asserted_of(name))

    def limited_as(self, name: str) -> str:
        """The name under which a class stands in the file: that of the limit that it shares with others, or its own."""
        found = [key for key in self.asserted_of(name) if key in self.limits]
        if len(found) > 1:
            raise TraceError("the limits of %s mean the same objects; ask for them in two runs" % " and ".join(found))
        return found[0] if found else name

    def objects_of_subclasses(self, name: str) -> Dict[str, int]:
        """How many objects of each subclass of a class the dump has."""
        return {one: count for one, count in self.counts.items() if count and name in self.superclasses.get(one, ())}

    def need_room(self, kept: int, counts: Dict[str, int]) -> None:
        """Refuses more objects than there is room for, and says which classes have most of them."""
        if kept > self.room.objects and self.limited:
            raise TraceError(
                "%d objects would be kept, and %s takes %d; leave some out by --only or --without%s. Most are of: %s"
                % (kept, self.room.program, self.room.objects, self.room.advice, most_of(counts))
            )

    def need_known(self, known: Set[str]) -> None:
        """Refuses a class or a prefix that the dump knows nothing of: what is asserted would hold whatever the program does."""
        if self.may_be_missing:
            return
        named = {without_plus(name) for name in self.named}
        missing = ["%s%s" % (name, _nearest(name, known)) for name in sorted(named - known)]
        missing += [
            "that begins with %s%s" % (prefix, _nearest_beginning(prefix, known))
            for prefix in self._only
            if not any(name.startswith(prefix) for name in known)
        ]
        if missing:
            raise TraceError("; ".join("the dump has no class " + one for one in missing))


def without_plus(name: str) -> str:
    """The class that was named, whether with its subclasses or without."""
    return name[: -len(PLUS)] if name.endswith(PLUS) else name


def _nearest(name: str, known: Set[str]) -> str:
    """The names that were meant, as far as can be guessed."""
    last = _last_word(name)
    found = sorted((one for one in known if _last_word(one) == last), key=len)[:3]
    found = found or difflib.get_close_matches(name, known, 3)
    return ", but %s" % " and ".join(found) if found else " and none with a name like it"


def _nearest_beginning(prefix: str, known: Set[str]) -> str:
    """The beginnings of names that were meant, as far as can be guessed."""
    return _nearest(prefix, {name[: len(prefix)] for name in known})


def _last_word(name: str) -> str:
    """What stands behind the last of the signs that part packages and outer classes, in small letters."""
    return name.replace("$", ".").replace("/", ".").rpartition(".")[2].lower()


def most_of(counts: Dict[str, int]) -> str:
    """The classes that have most objects, and how many classes more there are."""
    most = sorted(counts.items(), key=lambda one: (-one[1], one[0]))[:SHOWN_CLASSES]
    more = ", and %d classes more" % (len(counts) - len(most)) if len(counts) > len(most) else ""
    return ", ".join("%s %d" % one for one in most) + more

"""The recorder: what the roots of a program reach, collection by collection, as a trace for gcaudit."""
import contextlib
import pickle
from typing import IO, Any, Callable, Dict, Iterable, Iterator, List, NamedTuple, Optional, Set, Tuple, Union

from gcaudit_trace import TraceError, TraceWriter, WholeFile, audit, legal_name
from gcaudit_trace.reports.growth import Growth
from gcaudit_trace.reports.instance_paths import with_instances
from gcaudit_trace.traces.whole_file import Batch

from .assertions import Assertion, Hold
from .collector import NoAutomaticCollection, is_garbage
from .contents import PLAIN, forget_shapes, shape_of, type_name
from .everything import everything
from .forked import Child, find_garbage, in_child, need_fork
from .heap_writer import HeapWriter
from .instances import Limit, Limits
from .leftovers import left_by
from .notices import Place, place_of_program
from .regions import Region, Regions
from .unchecked import check_for
from .unreached import find_beside
from .violation import HeapViolation
from .walk import Walk

EVERYTHING = "everything"
Roots = Union[None, str, Dict[str, Any]]


class Done(NamedTuple):
    """What a child did, as far as the process has to know it."""

    written: Dict[int, Optional[Tuple[int, ...]]]  # by the serial number of an assertion's target
    dropped: Set[int]  # the serial numbers of holds whose objects nothing else holds
    had_root: bool


class Recorder:
    """Writes the trace of a program's heap, as far as the roots reach it.

    `file` is a path, or an open text file. `roots` names the objects from which everything else is reached; the word
    "everything" takes all modules, classes, running frames and what the interpreter holds. Roots are referred to weakly
    where their type allows it, so the recorder doesn't keep them alive. `deep` makes classes, modules, frames and the
    globals of functions objects of the trace; "everything" implies it. Assertions are checked at each `collect()` after
    them. As a context manager the recorder finishes the file at the end, and leaves none where the block raises.

    With `fork` each collection walks in a forked child of the process, which has `fork_seconds` for it: the process goes on
    meanwhile, and learns at the next collection, at `wait()`, or at the end how it went.

    `may_be_empty` says that it is no mistake where `check` finds that nothing was asserted, or that no root was there.
    `audit_later` says that it is none where `check` isn't called: the trace is audited by itself.
    """

    def __init__(
        self,
        file: Any,
        roots: Roots = None,
        deep: bool = False,
        may_be_empty: bool = False,
        audit_later: bool = False,
        fork: bool = False,
        fork_seconds: float = 600,
    ) -> None:
        if fork:
            need_fork()
        self._whole = None if hasattr(file, "write") else WholeFile(file)
        self._lines = Batch(file.write if self._whole is None else self._whole.write)
        self._trace = TraceWriter(self._lines.add)
        self._roots: Dict[str, Hold] = {}
        self._heap = HeapWriter(self._trace)
        self._assertions: List[Assertion] = []
        self._asserted_type = ""  # that of the first object of which something was asserted
        self._limits = Limits()
        self._regions = Regions()
        self._region_ended = False
        self._pending = False  # something was asserted after the last collection
        self._open = True
        self._everything = False
        self._deep = deep
        self._had_root = False
        self._fork = fork
        self._fork_seconds = fork_seconds
        self._child: Optional[Child] = None
        self._state: Optional[IO[bytes]] = None  # what the last child handed back, for the next collection
        self._check = check_for(self)
        self._check.is_settled = (
            audit_later or self._whole is None
        )  # what is written to an open file isn't checked here
        self.may_be_empty = may_be_empty
        self.collections = 0
        if roots == EVERYTHING if isinstance(roots, str) else False:
            self.everything()
        elif roots is not None and not isinstance(roots, dict):
            self.abandon()
            raise TraceError(
                "roots are a dict of names and objects, or the word %r; not %s" % (EVERYTHING, _shown(roots))
            )
        else:
            try:
                for name, obj in (roots or {}).items():
                    self.root(name, obj)
            except BaseException:
                self.abandon()
                raise

    # ---- what the program says

    def root(self, name: str, obj: Any) -> None:
        """The root `name` is this object from now on. None takes the root away. A module or a class may be one."""
        self._need_open()
        if not isinstance(name, str):
            raise TraceError("the name of a root is a text, not %s" % _shown(name))
        name = legal_name(name)
        if obj is None:
            self._roots.pop(name, None)
            return
        self._need_recorded(obj, inner=True)
        self._roots[name] = Hold(obj)

    def everything(self) -> None:
        """All modules, classes, running frames and what the interpreter holds are roots from now on."""
        self._need_open()
        self._everything = self._deep = True

    def assert_dead(self, obj: Any) -> None:
        """At each later collection the object must be gone: no root leads to it, and nothing else keeps it alive."""
        self._assert("dead", obj)

    def assert_unshared(self, obj: Any) -> None:
        """At each later collection the object has one reference at most."""
        self._assert("unshared", obj)

    def assert_owned_by(self, owner: Any, obj: Any) -> None:
        """The object must not outlive its owner's hold on it. A later owner replaces an earlier one.

        At each later collection, where a root leads to the object past its owner, the owner must be there and lead to it
        too.
        """
        self._need_recorded(owner)
        if owner is obj:
            raise TraceError("an object can't own itself")
        self._assertions = [a for a in self._assertions if a.kind != "owned" or a.target.get() is not obj]
        self._assert("owned", obj, owner)

    def assert_instances(self, cls: type, limit: int, subclasses: bool = False, reached_only: bool = False) -> None:
        """At each later collection there are at most so many objects of exactly this class, or of its `subclasses` too.

        What counts is reached by the roots, or alive otherwise: held by a class, a cache, a handler. `reached_only`
        leaves out what no root leads to. Where the class has no objects, and subclasses have some, a warning says so.
        """
        self._need_open()
        if not isinstance(cls, type):
            raise TraceError("assert_instances takes a class, not %s" % _shown(cls))
        if not isinstance(limit, int) or isinstance(limit, bool) or not 0 <= limit <= 4294967295:
            raise TraceError("a limit is a whole number from 0 to 4294967295, not %s" % _shown(limit))
        if cls in PLAIN:
            raise TraceError("%s is a plain value, which the recorder leaves out" % cls.__name__)
        made = Limit(cls, limit, subclasses, reached_only)
        self._limits.add(made)
        self._trace.assert_instances(made.name, limit)
        self._check.asserted = self._pending = True

    @contextlib.contextmanager
    def region(self, ignore: Iterable[str] = ()) -> Iterator[None]:
        """What is allocated in the block and is still there must be dead at each collection after it.

        `ignore` has patterns with * and ?: what has such a type, or is reached over a path that begins so, is let be. A path is
        written as in a report, without numbers: `root app.log[*].body` or `root app.cache*`.
        """
        self._need_open()
        if isinstance(ignore, str):
            raise TraceError("ignore takes a list of patterns; write [%r]" % ignore)
        patterns: List[Any] = list(ignore) if isinstance(ignore, Iterable) else [ignore]
        if not all(isinstance(pattern, str) for pattern in patterns):
            raise TraceError("ignore takes a list of patterns, which are texts; not %r" % (ignore,))
        place = place_of_program()
        with NoAutomaticCollection():
            region = self._regions.begin()
        try:
            yield
        finally:  # whoever catches what the block raises goes on, and what the block left is to be dead all the same
            with NoAutomaticCollection():
                self._end_region(region, patterns, place)

    # ---- a collection

    def collect(self, fork: Optional[bool] = None) -> None:
        """Collects Python's own garbage, writes what changed since the last collection, and `collect`.

        With `fork` this is done in a forked child, for the objects that are there now, and `collect` returns at once. A
        child that is still there is awaited first.
        """
        self._need_open()
        self.wait()
        forget_shapes()
        if self._fork if fork is None else fork:
            self._collect_in_child()
        else:
            self._regions.collect()
            self._go_on_with(self._state)
            self._forget_state()
            with NoAutomaticCollection():
                self._collect()
        forget_shapes()

    def wait(self) -> None:
        """Waits until the child of the last collection is done. Where it failed, died or hangs, that is an error, and nothing is written."""
        child, self._child = self._child, None
        if child is None:
            return
        try:
            self._take(child.answer())
            self._forget_state()
            self._state = child.state()
        except BaseException:
            child.end()
            self.abandon()
            raise

    def growth(self, rounds: int, work: Callable[[], Any], warm_up: int = 1) -> Growth:
        """Calls `work` to warm up and then `rounds` times, and says what increased in each round: by type, and by what holds it.

        Caches and buffers that fill meanwhile are reported too, so `warm_up` is how many calls it takes until they are full. The
        growth prints as a table. Nothing is written to the trace.
        """
        self._need_open()
        if not _is_count(rounds) or not _is_count(warm_up) or not callable(work):
            raise TraceError(
                "growth takes the number of rounds, from 1 on, a function without arguments, and how often it warms up"
            )
        for _ in range(warm_up - 1):
            work()
        found = []
        for _ in range(rounds + 1):
            work()
            forget_shapes()
            self._regions.collect()
            with NoAutomaticCollection():
                found.append(self._walk_from_roots(with_values=True).counts())
        return Growth(found, "round", alike=True)

    def close(self) -> None:
        """Makes a last collection where something was asserted after the last one, and finishes the file."""
        if not self._open:
            return
        try:
            if self._pending or not (self.collections or self._child):
                self.collect()
            self.wait()
            self._open = False
            self._forget_state()
            if self._whole is not None:
                self._whole.finish()
        except BaseException:
            self.abandon()
            raise

    def abandon(self) -> None:
        """Ends the recording. No file is left under the name that was asked for."""
        if self._child is not None:
            self._child.end()
            self._child = None
        self._forget_state()
        if self._open and self._whole is not None:
            self._whole.give_up()
        self._open = False
        self._check.is_settled = True

    def check(self, program: Optional[str] = None, all_instances: bool = False) -> str:
        """Makes a last collection, closes the recorder, runs gcaudit, and answers its report.

        A violation raises HeapViolation. The program is found by the argument, the variable GCAUDIT or the PATH. With
        `all_instances` each object of a type that has more than its limit is told with its path.
        """
        if self._whole is None:
            raise TraceError("check() needs a recorder that was made with a path")
        self._check.is_settled = True
        if self._open:
            self._pending = True
            self.close()
        if not self.may_be_empty:
            self._need_something()
        done = audit(self._whole.path, program)
        if all_instances:
            done = done._replace(named=with_instances(done, self._whole.path))
        if done.status != 0:
            raise HeapViolation.of(done, self._whole.path)
        return done.named

    def _need_something(self) -> None:
        """Refuses a check that would pass whatever the program does."""
        if not self._check.asserted:
            raise TraceError("nothing was asserted, so nothing was checked; assert something, or say may_be_empty")
        if not self._had_root:
            raise TraceError(
                "no root was there at any collection, so nothing was looked at; name roots that live until then, or say may_be_empty"
            )

    def __enter__(self) -> "Recorder":
        return self

    def __exit__(self, kind: Any, error: Any, trace: Any) -> None:
        if kind is None:
            self.close()
        else:
            self.abandon()

    # ---- inside

    def _need_open(self) -> None:
        if not self._open:
            raise TraceError("this recorder is closed")

    def _need_recorded(self, obj: Any, inner: bool = False) -> None:
        shape = shape_of(obj)
        if shape.left_out or (shape.inner and not (inner or self._deep)):
            raise TraceError(
                "objects of the type %s are left out of traces, so nothing can be said of one" % shape.name
            )

    def _assert(self, kind: str, obj: Any, owner: Any = None) -> None:
        self._need_open()
        self._need_recorded(obj)
        self._assertions.append(Assertion(kind, obj, owner))
        self._asserted_type = self._asserted_type or shape_of(obj).name
        self._check.asserted = self._pending = True

    def _live_roots(self) -> List[Tuple[str, Any]]:
        """The roots that are still there; one whose object died is forgotten."""
        found = [(name, hold.get()) for name, hold in self._roots.items()]
        self._roots = {name: self._roots[name] for name, obj in found if obj is not None}
        return [(name, obj) for name, obj in found if obj is not None]

    def _owners(self) -> List[Any]:
        pairs = [(a.target.get(), a.owner.get()) for a in self._assertions if a.owner is not None]
        return [owner for ownee, owner in pairs if ownee is not None and owner is not None]

    def _held_addresses(self) -> Dict[int, Set[int]]:
        """The addresses of the objects that assertions and roots hold themselves, and by which holds."""
        holds = [a.target for a in self._assertions] + [a.owner for a in self._assertions if a.owner is not None]
        found: Dict[int, Set[int]] = {}
        for hold in holds + list(self._roots.values()):
            if hold.holds_itself():
                found.setdefault(id(hold.get()), set()).add(hold.serial)
        return found

    def _walk_from_roots(self, counted: Optional[Dict[int, List[Limit]]] = None, with_values: bool = False) -> Walk:
        walk = Walk(self._heap.known, self._heap.labels, self._deep, self._held_addresses(), counted, with_values)
        walk.from_roots(self._live_roots())
        if self._everything:
            everything(walk)
        self._had_root = self._had_root or bool(walk.roots)
        return walk

    def _collect(self) -> None:
        self._assertions = [a for a in self._assertions if a.target.get() is not None]
        walk = self._walk_from_roots(self._limits.counted())
        walk.from_owners(self._owners())
        beside = find_beside(walk, self._assertions, self._limits, self._held_addresses(), self._regions)
        for one in self._assertions:
            target = one.target.get()
            if target is not None and (not one.in_region or walk.has(target)):
                walk.add(target, False)
        fresh = {id(one.target.get()) for one in self._assertions if one.in_region and one.written is None}
        walk.settle(lambda obj: id(obj) in fresh)
        self._heap.write(walk, beside, self._assertions, self._region_ended, self._asserted_type)
        self._lines.flush()
        self.collections += 1
        self._drop_what_is_gone(walk)
        self._region_ended = self._pending = False

    # ---- a collection in a forked child

    def _collect_in_child(self) -> None:
        if self._whole is None:
            raise TraceError("with fork=True the recorder needs a path, since the child writes to the file by itself")
        if self._regions:
            raise TraceError("inside a region a collection can't be in a forked child; leave fork=True out there")
        self._lines.flush()
        self._whole.flush()
        self._child = Child(self._work_in_child, self._whole.folder, self._fork_seconds)
        self._region_ended = self._pending = False

    def _forget_state(self) -> None:
        if self._state is not None:
            self._state.close()
            self._state = None

    def _holds(self) -> List[Hold]:
        """All that refers to objects for the recorder."""
        owners = [a.owner for a in self._assertions if a.owner is not None]
        return [a.target for a in self._assertions] + owners + list(self._roots.values())

    def _work_in_child(self, aside: List[Any]) -> Tuple["Done", bytes]:
        """In the child: the whole collection. The answer is what the process has to know of it."""
        assert self._whole is not None
        self._whole.write_in_child()
        holds, asserted = self._holds(), self._assertions
        holding = [hold for hold in holds if hold.holds_itself()]
        roots = set(map(id, self._roots.values()))
        in_child(find_garbage({id(aside)} | {id(hold) for hold in holding if id(hold) not in roots}))
        for hold in holds:
            if is_garbage(hold.get()):
                hold.forget()
        self._go_on_with(self._state)
        self._collect()
        self._whole.flush()
        done = Done(
            {one.target.serial: one.written for one in asserted},
            {hold.serial for hold in holding if not hold.holds_itself()},
            self._had_root,
        )
        return done, pickle.dumps(self._heap.state(holds), pickle.HIGHEST_PROTOCOL)

    def _go_on_with(self, state: Optional[IO[bytes]]) -> None:
        if state is not None:
            self._heap.go_on(pickle.load(state), self._holds())

    def _take(self, done: "Done") -> None:
        """What a child did is taken over."""
        assert self._whole is not None
        self._whole.go_on_after_child()
        for one in self._assertions:
            if one.target.serial in done.written:
                one.written = done.written[one.target.serial]
        for hold in self._holds():
            if hold.serial in done.dropped:
                hold.drop()
        self._assertions = [a for a in self._assertions if a.target.get() is not None]
        self._had_root = self._had_root or done.had_root
        self.collections += 1

    def _drop_what_is_gone(self, walk: Walk) -> None:
        """What a collection doesn't find is no longer held, and nothing is asserted of it any longer."""
        for one in self._assertions:
            for hold in (one.target, one.owner):
                if hold is not None and hold.holds_itself() and not walk.has(hold.get()):
                    hold.drop()
        self._assertions = [a for a in self._assertions if a.target.get() is not None]
        self._limits.forget_all_but(walk.now.place_of)

    # ---- regions

    def _end_region(self, region: Region, patterns: List[str], place: Place) -> None:
        tracked = self._regions.end(region)
        walk = self._walk_from_roots()
        own = self._heap.own() | set(map(id, vars(walk).values())) | set(map(id, vars(walk.now).values()))
        new = [obj for obj in left_by(region, tracked, walk, patterns, place, own) if not self._limits.has_marker(obj)]
        self._assertions += [Assertion("dead", obj, in_region=True) for obj in new]
        self._region_ended = self._pending = self._check.asserted = True


def _shown(value: Any) -> str:
    """A value of a wrong type, as a message shows it."""
    return "an object of the type %s" % type_name(type(value)) if type(value) not in PLAIN else repr(value)[:80]


def _is_count(value: Any) -> bool:
    """Whether it is a whole number from 1 on."""
    return isinstance(value, int) and value >= 1

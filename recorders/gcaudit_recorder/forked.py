"""A collection in a forked child of the process: the process goes on while the child walks what it held at the fork.

The child runs no code of the program: no finalizer, no handler of a signal, nothing that is done at an exit. It frees
nothing either. So Python's collector doesn't run in it, and what that would free is found by counting (`find_garbage`).
"""
import contextlib
import contextvars
import gc
import operator
import os
import pickle
import signal
import sys
import tempfile
import threading
import time
import traceback
import types
import weakref
from typing import IO, Any, Callable, Dict, Iterable, List, NoReturn, Optional, Set, Tuple

from gcaudit_trace import TraceError

from . import collector, holders, notices
from .collector import Garbage, NoAutomaticCollection

_LONGEST_PAUSE = 0.05  # between two looks at whether the child has ended


def need_fork() -> None:
    """Refuses a fork where there is none, or where the child couldn't walk."""
    if not hasattr(os, "fork"):
        raise TraceError("this system has no fork, so collect() has to walk in the process itself; leave fork=True out")
    if not getattr(sys, "_is_gil_enabled", lambda: True)():
        raise TraceError("fork=True doesn't work in a Python that runs without its global lock (GIL); leave it out")


class Kept(list):  # a class of the recorder's, so that no chain of holders goes through it
    """Objects that live in the child although what held them there is gone."""


def find_garbage(let_go: Set[int]) -> Garbage:
    """What Python's collector would free if the objects at the addresses `let_go` held nothing. Nothing is freed, and no finalizer runs.

    It is the way of Python's collector: an object with more references than tracked objects have to it is held from
    elsewhere, and so is all that such objects lead to.
    """
    objects = gc.get_objects()
    inside: Dict[int, int] = {}
    of_all = map(id, gc.get_referents(*objects))
    for address in of_all:
        inside[address] = inside.get(address, 0) + 1
    probe = [[]]  # type: List[List[Any]]
    of_counting = next(map(sys.getrefcount, probe))
    left: Set[int] = set()
    level = []
    counts = list(map(sys.getrefcount, objects))  # alone, since zip holds what it hands on
    for obj, references in zip(objects, counts):
        if references - of_counting > inside.get(id(obj), 0) and id(obj) not in let_go:
            level.append(obj)
        else:
            left.add(id(obj))
    left -= let_go
    while level:
        found = []
        for held in gc.get_referents(*level):
            if id(held) in left:
                left.remove(id(held))
                found.append(held)
        level = found
    references_of: Dict[int, int] = {}
    for held in gc.get_referents(*[obj for obj in objects if id(obj) in left]):
        references_of[id(held)] = references_of.get(id(held), 0) + 1
    return Garbage(frozenset(left), references_of)


class _Threads:
    """What other threads hold and the child would lose: Python takes away there what it has of threads that don't run."""

    def __init__(self) -> None:
        kinds = _subclasses(threading.local)
        found = [obj for obj in gc.get_objects() if id(type(obj)) in kinds or type(obj) is contextvars.Context]
        self._active = [(table, dict(table)) for table in _tables_of_threads()]
        contexts = [obj for obj in found if type(obj) is contextvars.Context]
        self._contexts = Kept(contexts)
        self._locals = Kept(key() for obj in found if id(type(obj)) in kinds for key in _threads_of_local(obj))
        del found, contexts
        self._references = list(map(sys.getrefcount, self._contexts))

    def fork(self) -> int:
        """Forks in one step with a look at the frames, so that no thread goes on in between. The answer is that of os.fork."""
        steps = [getattr(sys, "_current_exceptions", dict), sys._current_frames, os.fork]
        exceptions, frames, child = map(operator.methodcaller("__call__"), steps)
        if child == 0:
            self._frames: Dict[int, types.FrameType] = frames
            self._exceptions = Kept(exceptions.values())
        return child

    def restore(self) -> List[Any]:
        """In the child: the tables as they were. The answer is what nobody holds but this object: it doesn't count as held."""
        holders.frames_of_threads = self._frames
        for table, entries in self._active:
            table.update(entries)
        self._active = []
        # A context that lost a reference was that of a thread. The others are held by somebody else, or by nobody.
        lost = [now < was for now, was in zip(map(sys.getrefcount, self._contexts), self._references)]
        aside = Kept(one for one, is_of_thread in zip(self._contexts, lost) if not is_of_thread)
        of_threads = Kept(one for one, is_of_thread in zip(self._contexts, lost) if is_of_thread)
        self._contexts = of_threads
        return aside


def _subclasses(kind: type) -> Set[int]:
    found, work = {id(kind)}, [kind]
    while work:
        for one in type.__subclasses__(work.pop()):
            if id(one) not in found:
                found.add(id(one))
                work.append(one)
    return found


def _tables_of_threads() -> List[Dict[Any, Any]]:
    tables = [getattr(threading, name, None) for name in ("_active", "_limbo")]
    return [table for table in tables if type(table) is dict]


def _threads_of_local(obj: Any) -> Iterable[Any]:
    """Weak references to what each thread has to say that it lives: while these live, its data stays."""
    for held in gc.get_referents(obj):
        if type(held) is dict:
            for key in list(held):
                if type(key) is weakref.ReferenceType:
                    yield key


class Child:
    """A child of the process that does some work there and hands its answer back.

    Beside the answer the work hands back bytes, which the process doesn't read: they are for the next child (`state`).
    """

    def __init__(self, work: Callable[[List[Any]], Tuple[Any, bytes]], folder: str, seconds: float) -> None:
        need_fork()
        self._seconds = seconds
        self._began = time.monotonic()
        try:
            self._answer: IO[bytes] = tempfile.TemporaryFile(dir=folder)
        except OSError as error:
            raise TraceError("no file for the child's answer can be made in %s: %s" % (folder, error)) from None
        with NoAutomaticCollection():
            threads = _Threads()
            # Python's handlers are called in the child too, by signals to the group of processes.
            mask = signal.pthread_sigmask(signal.SIG_BLOCK, signal.valid_signals())
            try:
                self.process = threads.fork()
                if self.process == 0:
                    self._run(work, threads)
            except OSError as error:
                self._answer.close()
                raise TraceError("the process can't be forked: %s" % (error.strerror or error)) from None
            finally:
                signal.pthread_sigmask(signal.SIG_SETMASK, mask)
        self._end = weakref.finalize(self, _end, self.process, os.getpid())

    def _run(self, work: Callable[[List[Any]], Tuple[Any, bytes]], threads: _Threads) -> NoReturn:
        """In the child. It ends here in any case, without handlers of an exit and without flushing the process's files."""
        try:
            gc.disable()
            notices.said = []
            try:
                done, state = work(threads.restore())
                answer = (True, done, notices.said)
            except TraceError as error:
                answer, state = (False, str(error), notices.said), b""
            except BaseException:
                text = "the child that walks the heap failed:\n%s" % traceback.format_exc()
                answer, state = (False, text, notices.said), b""
            written = pickle.dumps(answer, pickle.HIGHEST_PROTOCOL)
            _write_all(self._answer.fileno(), len(written).to_bytes(8, "big") + written + state)
        finally:
            os._exit(0)

    def answer(self) -> Any:
        """Waits for the child, and answers what its work did. Where that failed, or the child died or hangs, it is an error."""
        status = self._wait()
        found = self._read()
        if found is None:
            how = "by signal %d" % os.WTERMSIG(status) if status is not None and os.WIFSIGNALED(status) else "early"
            raise TraceError("the child that walks the heap ended %s, so nothing was checked" % how)
        is_done, answer, said = found
        for place, text, kind in said:
            place.warn(text, kind)
        if not is_done:
            raise TraceError(answer)
        return answer

    def state(self) -> IO[bytes]:
        """After the answer: a file that has what is for the next child from where it stands on."""
        return self._answer

    def end(self) -> None:
        """Ends the child where it isn't needed any longer."""
        self._end()
        self._answer.close()

    def _wait(self) -> Optional[int]:
        """Waits until the child has ended, and answers its status; None where somebody else took it."""
        pause = 0.001
        while True:
            try:
                ended, status = os.waitpid(self.process, os.WNOHANG)
            except ChildProcessError:  # the program looks after all children, or ignores them
                if self._read() is not None or not _is_there(self.process):
                    self._end.detach()
                    return None
                ended, status = 0, 0
            if ended:
                self._end.detach()
                return status
            if time.monotonic() - self._began > self._seconds:
                self._end()
                raise TraceError(
                    "the child that walks the heap wasn't done after %g seconds, so it was ended and nothing was checked; "
                    "a lock may have been held when it was forked, or give it more by fork_seconds" % self._seconds
                )
            time.sleep(pause)
            pause = min(2 * pause, _LONGEST_PAUSE)

    def _read(self) -> Any:
        """The whole answer; None where it isn't there."""
        self._answer.seek(0)
        length = self._answer.read(8)
        if len(length) < 8:
            return None
        written = self._answer.read(int.from_bytes(length, "big"))
        return pickle.loads(written) if len(written) == int.from_bytes(length, "big") else None


def _write_all(file: int, written: bytes) -> None:
    rest = memoryview(written)
    while rest:
        rest = rest[os.write(file, rest) :]


def _is_there(process: int) -> bool:
    try:
        os.kill(process, 0)
    except OSError:
        return False
    return True


def _end(process: int, parent: int) -> None:
    """Ends a child that is still there. A number that isn't that of a child any longer may be another process's."""
    if os.getpid() != parent:
        return
    with contextlib.suppress(OSError):
        if os.waitpid(process, os.WNOHANG)[0] == 0:
            os.kill(process, signal.SIGKILL)
            os.waitpid(process, 0)


def in_child(garbage: Garbage) -> None:
    """From now on this process is a child, in which that is garbage."""
    collector.garbage = garbage


__all__ = ["Child", "Kept", "find_garbage", "in_child", "need_fork"]

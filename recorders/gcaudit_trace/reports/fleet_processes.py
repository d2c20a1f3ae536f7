"""The heaps of a fleet, several side by side in processes of this machine."""
import multiprocessing
import os
import signal
import sys
import tempfile
from collections import deque
from multiprocessing.connection import Connection, wait
from typing import Any, Deque, Dict, Iterator, List, Sequence

from .fleet import Part
from .fleet_heap import Task, audited_heap, not_audited

_SPAWN = multiprocessing.get_context("spawn")
_LONGEST_END = 10.0  # seconds in which a process that does nothing ends by itself


def processors() -> int:
    """How many this process may use."""
    try:
        return len(os.sched_getaffinity(0))
    except AttributeError:  # not on every system
        return os.cpu_count() or 1


def on_processes(tasks: Sequence[Task], jobs: int) -> Iterator[Part]:
    """What each heap has, as soon as it is known. A heap whose process is killed could not be audited."""
    waiting: Deque[Task] = deque(tasks)
    with tempfile.TemporaryDirectory(prefix="gcaudit-") as folder:
        started: List[_Process] = []
        busy: Dict[Any, _Process] = {}
        try:
            while waiting or busy:
                while waiting and len(busy) < jobs:
                    started.append(_Process(folder))
                    busy[started[-1].pipe] = started[-1]
                    started[-1].begin(waiting.popleft())
                for pipe in wait(list(busy)):
                    process = busy[pipe]
                    yield process.result()
                    if process.is_alive and waiting:
                        process.begin(waiting.popleft())
                    else:
                        del busy[pipe]
                        process.end()
                        started.remove(process)
        finally:
            for process in started:
                process.end()


class _Process:
    """A process that audits one heap after the other."""

    def __init__(self, folder: str) -> None:
        self.pipe, theirs = _SPAWN.Pipe()
        self.is_alive = True
        self._is_busy = False
        self._process = _SPAWN.Process(target=_serve, args=(theirs, folder), daemon=True)
        self._process.start()
        theirs.close()

    def begin(self, task: Task) -> None:
        self._task = task
        self._is_busy = True
        try:
            self.pipe.send(task)
        except OSError:  # it is gone, which its result tells
            pass

    def result(self) -> Part:
        self._is_busy = False
        try:
            return self.pipe.recv()
        except (EOFError, OSError):
            self.is_alive = False
            self._process.join()
            code = self._process.exitcode or 0
            ended = "was killed by signal %d" % -code if code < 0 else "ended with status %d" % code
            return not_audited(self._task, "the process that audited it %s" % ended)

    def end(self) -> None:
        """Ends the process. One that does nothing ends by itself when its pipe is closed; a signal could come while it ends, and it would say so."""
        self.pipe.close()
        if not self._is_busy:
            self._process.join(_LONGEST_END)
        self._process.terminate()
        self._process.join()


def _serve(pipe: Connection, folder: str) -> None:
    """Audits the heaps that come through the pipe, until it is closed. What is temporary goes into a folder that the other process removes."""
    tempfile.tempdir = folder
    # A key for all processes of a terminal: the other process ends this one.
    signal.signal(signal.SIGINT, signal.SIG_IGN)
    signal.signal(signal.SIGTERM, lambda number, frame: sys.exit(128 + number))  # so that gcaudit is ended too
    while True:
        try:
            task = pipe.recv()
        except (EOFError, OSError):
            return
        pipe.send(audited_heap(task))

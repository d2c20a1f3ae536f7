"""Collections in a forked child: the process goes on, and what the child finds is what a walk in the process finds."""
import contextlib
import gc
import io
import os
import signal
import subprocess
import sys
import threading
import time
import unittest
import weakref
from unittest import mock

from tests.support import PROGRAM, RECORDERS, InFolder, events, needs_program

from gcaudit_recorder import HeapViolation, HeapWarning, Recorder, TraceError, audited
from gcaudit_recorder import forked
from gcaudit_recorder.recorder import Recorder as RecorderClass


class Session:
    pass


class Bus:
    def __init__(self):
        self.listeners = []


class Slotted:
    __slots__ = ("held",)


@unittest.skipUnless(hasattr(os, "fork"), "no fork")
class Collections(InFolder):
    def setUp(self):
        super().setUp()
        self.bus = Bus()

    def recorder(self, **words):
        recorder = Recorder(self.path("trace.jsonl"), {"bus": self.bus}, fork=True, **words)
        self.addCleanup(recorder.abandon)
        return recorder

    @needs_program
    def test_a_leak_and_its_twin(self):
        for leaks in (True, False):
            session = Session()
            self.bus.listeners[:] = [session]
            with self.recorder() as recorder:
                recorder.assert_dead(session)
                del session
                if not leaks:
                    self.bus.listeners.clear()
                recorder.collect()
                if leaks:
                    with self.assertRaises(HeapViolation) as caught:
                        recorder.check(PROGRAM)
                    self.assertEqual(caught.exception.named.count(" dead 3 "), 2)
                else:
                    self.assertIn("violations 0", recorder.check(PROGRAM))

    @needs_program
    def test_audited(self):
        session = Session()
        self.bus.listeners.append(session)
        with self.assertRaises(HeapViolation):
            with audited({"bus": self.bus}, program=PROGRAM, fork=True) as recorder:
                recorder.assert_dead(session)
        self.bus.listeners.clear()
        with audited({"bus": self.bus}, program=PROGRAM, fork=True) as recorder:
            recorder.assert_dead(session)
            del session

    def test_what_was_there_at_the_fork_counts(self):
        session = Session()
        self.bus.listeners.append(session)
        recorder = self.recorder()
        recorder.assert_dead(session)
        recorder.collect()
        self.bus.listeners.clear()
        recorder.wait()
        recorder._pending = False
        recorder.close()
        self.assertEqual(
            [e["to"] for e in events(self.path("trace.jsonl")) if e["op"] == "store" and e["at"] == 2], [3]
        )

    def test_the_process_goes_on_while_the_child_walks(self):
        """The child stops before its walk until the process lets it go on."""
        ready, go = os.pipe()
        walk = RecorderClass._collect
        with mock.patch.object(RecorderClass, "_collect", lambda self: (os.read(ready, 1), walk(self))):
            recorder = self.recorder()
            recorder.collect()
            self.assertEqual(recorder.collections, 0)
            os.write(go, b"1")
            recorder.wait()
        self.assertEqual(recorder.collections, 1)
        os.close(ready), os.close(go)

    def test_an_address_that_is_used_again_is_another_object(self):
        """Only what the recorder refers to itself keeps its id: the root, and the session that is asserted of."""
        kept, session = Session(), Session()
        self.bus.listeners += [kept, session]
        with self.recorder() as recorder:
            recorder.assert_unshared(kept)
            recorder.collect()
            recorder.wait()
            address = id(session)
            self.bus.listeners.pop()
            del session
            others = []
            while not others or id(others[-1]) != address:
                others.append(Session())
            self.bus.listeners.append(others.pop())
            del others
            recorder._pending = True
        made = [
            e["id"] for e in events(self.path("trace.jsonl")) if e["op"] == "alloc" and e["type"].endswith("Session")
        ]
        stored = [(e["slot"], e["to"]) for e in events(self.path("trace.jsonl")) if e["op"] == "store" and e["at"] != 1]
        self.assertEqual(made, [3, 4, 6])
        self.assertEqual(stored, [(0, 3), (1, 4), (0, 3), (1, 6)])

    @needs_program
    def test_after_a_child_the_process_itself_may_walk(self):
        session = Session()
        self.bus.listeners.append(session)
        recorder = self.recorder()
        recorder.assert_dead(session)
        del session
        recorder.collect()
        recorder.collect(fork=False)
        recorder.collect()
        with self.assertRaises(HeapViolation) as caught:
            recorder.check(PROGRAM)
        self.assertEqual(caught.exception.named.count(" dead 3 "), 4)

    @needs_program
    def test_an_object_without_weak_references_is_let_go(self):
        """In a circle, so that only counting tells that nothing else holds it."""
        for leaks in (False, True):
            one, recorder = Slotted(), self.recorder()
            one.held = [one]
            recorder.assert_dead(one)
            if leaks:
                self.bus.listeners.append(one)
            del one
            if leaks:
                self.assertRaises(HeapViolation, recorder.check, PROGRAM)
            else:
                recorder.check(PROGRAM)
                gc.collect()
                self.assertFalse([obj for obj in gc.get_objects() if type(obj) is Slotted])
            self.bus.listeners.clear()

    @needs_program
    def test_a_thread_of_its_own_holds(self):
        """Python takes away in a child what it has of other threads; what these alone hold must not be lost."""
        local, came, end = threading.local(), threading.Event(), threading.Event()
        session = Session()

        def run():
            local.session = sessions.pop()
            try:
                raise KeyError(sessions_of_errors.pop())
            except KeyError:
                came.set()
                end.wait(60)

        other = Session()
        sessions, sessions_of_errors = [session], [other]
        thread = threading.Thread(target=run)
        thread.start()
        came.wait(60)
        recorder = self.recorder()
        recorder.assert_dead(session)
        recorder.assert_dead(other)
        del session, other
        with self.assertRaises(HeapViolation) as caught:
            recorder.check(PROGRAM)
        self.assertEqual(caught.exception.named.count(" dead "), 2)
        session = Session()
        recorder = self.recorder()
        recorder.assert_dead(session)
        del session
        end.set()
        thread.join()
        recorder.check(PROGRAM)

    @needs_program
    def test_warnings_are_said_in_the_process(self):
        class Guest(Session):
            pass

        self.bus.listeners.append(Guest())
        recorder = self.recorder()
        recorder.assert_instances(Session, 0)
        with self.assertWarns(HeapWarning):
            recorder.check(PROGRAM)


@unittest.skipUnless(hasattr(os, "fork"), "no fork")
class Endings(InFolder):
    """A child that dies, hangs or fails is an error, and the child leaves nothing behind."""

    def recorder(self, **words):
        self.bus = Bus()
        recorder = Recorder(self.path("trace.jsonl"), {"bus": self.bus}, fork=True, audit_later=True, **words)
        self.addCleanup(recorder.abandon)
        return recorder

    def fails(self, work, text, **words):
        recorder = self.recorder(**words)
        with mock.patch.object(RecorderClass, "_collect", work):
            recorder.collect()
            with self.assertRaisesRegex(TraceError, text):
                recorder.check(PROGRAM)
        self.assertEqual(os.listdir(self.folder), [])
        self.assertRaisesRegex(TraceError, "closed", recorder.collect)

    def test_it_dies(self):
        self.fails(lambda self: os.kill(os.getpid(), signal.SIGKILL), "ended by signal 9, so nothing was checked")

    def test_it_ends_early(self):
        self.fails(lambda self: os._exit(0), "ended early, so nothing was checked")

    def test_it_hangs(self):
        self.fails(lambda self: time.sleep(60), "wasn't done after 0.3 seconds", fork_seconds=0.3)

    def test_it_fails(self):
        self.fails(lambda self: 1 // 0, "ZeroDivisionError")

    def test_it_is_ended_with_the_recorder(self):
        recorder = self.recorder()
        with mock.patch.object(RecorderClass, "_collect", lambda self: time.sleep(60)):
            recorder.collect()
        child = recorder._child.process
        recorder.abandon()
        self.assertRaises(ChildProcessError, os.waitpid, child, os.WNOHANG)

    def test_a_program_that_ignores_its_children(self):
        before = signal.signal(signal.SIGCHLD, signal.SIG_IGN)
        self.addCleanup(signal.signal, signal.SIGCHLD, before)
        recorder = self.recorder()
        recorder.collect()
        recorder.wait()
        self.assertEqual(recorder.collections, 1)

    def test_nothing_of_the_program_runs_in_the_child(self):
        """No handler of the exit, no finalizer of garbage, no handler of a signal; and what files have to write is written once."""
        program = """
import atexit, gc, os, signal, sys
sys.path.insert(0, %r)
from gcaudit_recorder import Recorder
import gcaudit_recorder.recorder as module
gc.disable()
atexit.register(lambda: os.write(1, b"exit "))
signal.signal(signal.SIGTERM, lambda *_: os.write(1, b"signal "))
class Garbage:
    def __init__(self):
        self.me = self
    def __del__(self):
        os.write(1, b"finalizer ")
class Bus:
    pass
bus, out = Bus(), open(%r, "w")
out.write("once")
sys.stdout.write("text ")
Garbage()
work = module.Recorder._collect
module.Recorder._collect = lambda self: (os.kill(os.getpid(), signal.SIGTERM), work(self))
with Recorder(%r, {"bus": bus}, fork=True, audit_later=True) as recorder:
    recorder.assert_instances(Bus, 1)
    recorder.collect()
    recorder.wait()
out.close()
os.write(1, b"done ")
""" % (
            RECORDERS,
            self.path("out"),
            self.path("trace.jsonl"),
        )
        env = {name: value for name, value in os.environ.items() if name != "PYTHONUNBUFFERED"}
        done = subprocess.run([sys.executable, "-B", "-c", program], stdout=subprocess.PIPE, check=True, env=env)
        said = done.stdout.decode().split()
        self.assertEqual(sorted(said), ["done", "exit", "finalizer", "text"])
        self.assertEqual(said[0], "done")
        with open(self.path("out")) as out:
            self.assertEqual(out.read(), "once")


class Refusals(InFolder):
    def test_without_fork(self):
        with mock.patch.object(forked, "os", mock.Mock(spec=[])):
            with self.assertRaisesRegex(TraceError, "has no fork"):
                Recorder(self.path("trace.jsonl"), fork=True)
        self.assertEqual(os.listdir(self.folder), [])

    def test_without_a_lock(self):
        with mock.patch.object(sys, "_is_gil_enabled", lambda: False, create=True):
            with self.assertRaisesRegex(TraceError, "GIL"):
                Recorder(self.path("trace.jsonl"), fork=True)

    @unittest.skipUnless(hasattr(os, "fork"), "no fork")
    def test_an_open_file_and_a_region(self):
        with self.assertRaisesRegex(TraceError, "needs a path"):
            Recorder(io.StringIO(), {"bus": self}).collect(fork=True)
        recorder = Recorder(self.path("trace.jsonl"), {"bus": self}, audit_later=True)
        with contextlib.closing(recorder), recorder.region():
            self.assertRaisesRegex(TraceError, "inside a region", recorder.collect, fork=True)

    @unittest.skipUnless(hasattr(os, "fork"), "no fork")
    def test_a_fork_that_fails(self):
        recorder = Recorder(self.path("trace.jsonl"), {"bus": self}, audit_later=True)
        with mock.patch.object(os, "fork", side_effect=OSError(12, "Cannot allocate memory")):
            self.assertRaisesRegex(TraceError, "can't be forked: Cannot allocate memory", recorder.collect, fork=True)
        recorder.abandon()


@unittest.skipUnless(hasattr(os, "fork"), "no fork")
class Garbage(unittest.TestCase):
    """What is found by counting is what Python's collector frees."""

    def test_the_same_as_the_collector(self):
        gc.collect()
        gc.disable()
        self.addCleanup(gc.enable)
        circle, held = [Session(), {}], [Session(), {}]
        circle[1]["me"], held[1]["me"] = circle, held
        circle[0].kind = type("Made", (), {})
        wanted = {id(circle), id(circle[0]), id(circle[1]), id(circle[0].kind)}
        gone = weakref.ref(circle[0])
        others = {id(held), id(held[0]), id(held[1])}
        only_held = held[1]
        del circle, held
        found = forked.find_garbage(set()).addresses
        self.assertLessEqual(wanted, found)
        self.assertFalse(others & found)
        self.assertIsNotNone(gone())
        gc.collect()
        self.assertIsNone(gone())
        self.assertEqual(len(only_held), 1)


if __name__ == "__main__":
    unittest.main()

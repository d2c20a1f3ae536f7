"""What can't have a violation, whatever the program did, is no success: it is refused in a sentence, unless it is allowed."""
import contextlib
import io
import json
import os
import unittest

from gcaudit_recorder import Recorder
from gcaudit_trace.commands.fleet import main as fleet
from gcaudit_trace.commands.named import main as named
from gcaudit_trace.commands.view import main as view
from heapsnapshot_to_trace.__main__ import main as heapsnapshot_to_trace
from hprof_to_trace.__main__ import main as hprof_to_trace
from tests.support import PROGRAM, InFolder, events, needs_program
from tests.test_dumps import run, written_hprof, written_snapshot

ALLOC, ROOT, DEAD, COLLECT = (
    '{"op":"alloc","id":1,"type":"A","slots":0}',
    '{"op":"root","name":"r","to":1}',
    '{"op":"assert-instances","type":"A","limit":1}',
    '{"op":"collect"}',
)


class Session:
    pass


def quietly(command, *words):
    """The status of a command and its standard error, without its standard output."""
    with contextlib.redirect_stdout(io.StringIO()):
        return run(command, *words)


class NothingChecked(InFolder):
    def write(self, *lines):
        with open(self.path("trace.jsonl"), "w") as file:
            file.write("".join(line + "\n" for line in lines))
        return self.path("trace.jsonl")

    @needs_program
    def test_traces_that_can_have_no_violation(self):
        for lines, why in (
            ([], "has no collection in it and asserts nothing and has no root in it, so no object is reached"),
            ([ALLOC, ROOT, COLLECT], "asserts nothing"),
            ([ALLOC, DEAD, COLLECT], "has no root in it, so no object is reached"),
            ([ALLOC, ROOT, DEAD], "has no collection in it"),
        ):
            trace = self.write(*lines)
            want = "%s, so nothing was checked; --may-be-empty allows it\n" % why
            for command, name in ((named, "gcaudit-named"), (view, "gcaudit-view")):
                self.assertEqual(quietly(command, trace), (2, "%s: %s %s" % (name, trace, want)))
                self.assertEqual(quietly(command, "--may-be-empty", trace), (0, ""))
        self.assertEqual(quietly(view, self.write(ALLOC, ROOT, DEAD, COLLECT)), (0, ""))

    @needs_program
    def test_no_file_says_that_it_passed(self):
        trace = self.write(ALLOC, ROOT, COLLECT)
        reports = [word for form in ("junit", "sarif", "html") for word in ("--" + form, self.path(form))]
        self.assertEqual(quietly(view, trace, *reports)[0], 2)
        self.assertEqual(os.listdir(self.folder), ["trace.jsonl"])

    @needs_program
    def test_an_assertion_at_the_end_of_a_piece(self):
        from gcaudit_trace.reports import audit

        self.addCleanup(setattr, audit, "_READ_AT_A_TIME", audit._READ_AT_A_TIME)
        trace = self.write(ALLOC, ROOT, DEAD, COLLECT)
        for audit._READ_AT_A_TIME in range(1, 100):
            self.assertEqual(quietly(named, trace), (0, ""))

    def dumps(self):
        """A dump of each kind that is written by hand, with its converter and a class of it."""
        with open(self.path("hprof"), "wb") as file:
            file.write(written_hprof("I", ["shop/Order", "shop/Session"]))
        with open(self.path("v8"), "w") as file:
            json.dump(written_snapshot(), file)
        return (hprof_to_trace, self.path("hprof"), "shop.Session"), (heapsnapshot_to_trace, self.path("v8"), 'A\\"]')

    @needs_program
    def test_a_dump_without_an_assertion(self):
        for convert, dump, _ in self.dumps():
            status, said = run(convert, dump, self.path("trace.jsonl"))
            self.assertEqual(status, 0)
            self.assertIn("nothing is asserted in it, so gcaudit has nothing to check", said)
            status, said = quietly(view, self.path("trace.jsonl"))
            self.assertEqual(status, 2)
            self.assertIn("asserts nothing, so nothing was checked", said)

    @needs_program
    def test_an_assertion_of_a_class_without_objects_is_one(self):
        for word in ("--dead", "--unshared"):
            for convert, dump, _ in self.dumps():
                self.assertEqual(run(convert, dump, self.path("trace.jsonl"), "--may-be-missing", word, "Gone")[0], 0)
                self.assertEqual(quietly(view, self.path("trace.jsonl")), (0, ""))

    @needs_program
    def test_a_recorder_whose_asserted_objects_died_asserted_something(self):
        """Where nothing was asserted, the trace still says so."""
        for fork in (False, True) if hasattr(os, "fork") else (False,):
            for kind in ("dead", "unshared", "owned", ""):
                one = Session()
                with Recorder(self.path("trace.jsonl"), {"test": self}, audit_later=True, fork=fork) as recorder:
                    if kind == "owned":
                        recorder.assert_owned_by(self, one)
                    elif kind:
                        getattr(recorder, "assert_" + kind)(one)
                    del one
                    recorder.collect()
                    recorder.collect()
                lines = [e for e in events(self.path("trace.jsonl")) if e["op"].startswith("assert-")]
                self.assertEqual(len(lines), 1 if kind else 0)
                for command in (view, fleet):
                    status, said = quietly(command, self.path("trace.jsonl"))
                    self.assertEqual(status, 0 if kind else 2, said)

    @needs_program
    def test_what_is_left_for_the_dead_hides_no_limit(self):
        """A limit of the same type, before and after, is still one."""
        for is_before in (True, False):
            held = [Session(), Session()]
            with Recorder(self.path("trace.jsonl"), {"held": held}, audit_later=True) as recorder:
                if is_before:
                    recorder.assert_instances(Session, 1)
                recorder.assert_dead(Session())
                recorder.collect()
                if not is_before:
                    recorder.assert_instances(Session, 1)
            self.assertEqual(quietly(view, self.path("trace.jsonl"))[0], 1)

    def test_a_prefix_that_no_class_has(self):
        for convert, dump, name in self.dumps():
            wrong = name[:-2] + "x" + name[-1]
            status, said = run(convert, dump, self.path("none.jsonl"), "--only", wrong, "--only", name)
            self.assertEqual((status, sorted(os.listdir(self.folder))), (2, ["hprof", "v8"]))
            self.assertIn(": the dump has no class that begins with %s" % wrong, said)
            status, said = run(convert, dump, self.path("trace.jsonl"), "--only", wrong, "--may-be-missing")
            self.assertEqual(status, 0, said)
            os.unlink(self.path("trace.jsonl"))
        _, said = run(hprof_to_trace, self.path("hprof"), self.path("none.jsonl"), "--only", "shpo.")
        self.assertEqual(said, "hprof_to_trace: the dump has no class that begins with shpo., but shop.\n")


if __name__ == "__main__":
    unittest.main()

"""What is asserted of a class can mean its subclasses too; where it doesn't, and the class has no objects, they are told."""
import os
import subprocess
import unittest

from gcaudit_trace.reports.audit import audit
from heapsnapshot_to_trace.__main__ import main as heapsnapshot_to_trace
from hprof_to_trace.__main__ import main as hprof_to_trace
from tests.support import PROGRAM, PROGRAMS, InFolder, needs_commands, needs_program
from tests.test_dumps import dump_java, run


class Subclasses:
    """What both readers of dumps are held to."""

    def audited(self, dump, *words):
        """The violations by kind and type, and what the reader said."""
        status, said = run(type(self).convert, dump, self.path("trace.jsonl"), *words)
        self.assertEqual(status, 0, said)
        done = audit(self.path("trace.jsonl"), PROGRAM)
        return sorted((one.kind, one.type_name.rpartition("$")[2], one.count) for one in done.verdicts), said

    @needs_program
    def test_subclasses(self):
        leak, clean = self.make_dumps()
        name = self.prefix.__add__
        found, said = self.audited(leak, "--dead", name("Session"), "--dead", name("Unused"))
        self.assertEqual(found, [])
        self.assertRegex(
            said,
            r"no object of the class %s is in the dump; its subclasses have 2 \(.* 1, .* 1\), and %s\+ means these too\n"
            % (self.pattern("Session"), self.pattern("Session")),
        )
        self.assertRegex(said, r"no object of the class %s is in the dump\n" % self.pattern("Unused"))
        only = [
            "--only",
            self.prefix + "Item",
            "--only",
            self.prefix + "Session",
            "--only",
            self.prefix + "Box",
            "--only",
            self.prefix + "Config",
        ]
        words = [
            "--dead",
            name("Session+"),
            "--limit",
            name("Config+=1"),
            "--owned-by",
            "%s=%s" % (name("Box+"), name("Item+")),
        ]
        for more in ([], only):
            found, _ = self.audited(leak, *words, *more)
            self.assertEqual([kind for kind, _, _ in found], ["dead", "dead", "instances", "ownedby"], more)
            self.assertEqual(found[2], ("instances", "Config+", 2))
            found, said = self.audited(clean, *words, *more)
            self.assertEqual(found, [])
            self.assertIn("no object of the class %s or of a subclass is in the dump" % name("Session"), said)
        status, said = run(
            type(self).convert,
            leak,
            self.path("none.jsonl"),
            "--limit",
            name("Config+=1"),
            "--limit",
            name("OtherConfig=1"),
        )
        self.assertEqual(status, 2)
        self.assertIn("the limits of %s and %s mean the same objects" % (name("Config+"), name("OtherConfig")), said)

    def pattern(self, name):
        return (self.prefix + name).replace("$", r"\$")


@needs_commands("java", "javac", "jcmd")
class Java(Subclasses, InFolder):
    convert = staticmethod(hprof_to_trace)
    prefix = "Subclasses$"

    def make_dumps(self):
        subprocess.run(["javac", "-d", self.folder, os.path.join(PROGRAMS, "Subclasses.java")], check=True, timeout=300)
        return [dump_java(self.folder, kind, kind, main="Subclasses") for kind in ("leak", "clean")]

    def test_an_interface(self):
        """No object is of an interface itself, and a dump doesn't say what implements it: what is asserted of that would always hold."""
        leak, clean = self.make_dumps()
        for words in (
            ["--dead", "Subclasses$Listener+"],
            ["--limit", "Subclasses$Listener+=0"],
            ["--unshared", "Subclasses$Listener+"],
        ):
            status, said = run(hprof_to_trace, leak, self.path("none.jsonl"), *words)
            self.assertEqual(status, 2, said)
            self.assertIn("Subclasses$Listener may be an interface", said)
            self.assertFalse(os.path.exists(self.path("none.jsonl")))
        # A class without fields and subclasses can't be told from an interface; where nobody minds, it is none.
        for dump, name, status in ((leak, "Unused+", 2), (leak, "Heard+", 0), (clean, "Session+", 0)):
            self.assertEqual(
                run(hprof_to_trace, dump, self.path("trace.jsonl"), "--dead", "Subclasses$" + name)[0], status, name
            )
        words = ["--dead", "Subclasses$Unused+", "--may-be-missing"]
        self.assertEqual(run(hprof_to_trace, leak, self.path("trace.jsonl"), *words)[0], 0)


@needs_commands("node")
class Node(Subclasses, InFolder):
    convert = staticmethod(heapsnapshot_to_trace)
    prefix = ""

    def make_dumps(self):
        found = [self.path(kind + ".heapsnapshot") for kind in ("leak", "clean")]
        for kind, path in zip(("leak", "clean"), found):
            words = ["node", os.path.join(PROGRAMS, "subclasses.js"), kind, path]
            subprocess.run(words, check=True, timeout=300, stdout=subprocess.PIPE)
        return found


if __name__ == "__main__":
    unittest.main()

"""Growth of bytes in dumps of real programs: texts, numbers and buffers, by what holds them."""
import contextlib
import io
import os
import re
import subprocess
import unittest

from gcaudit_trace.commands.growth import main as growth
from tests.support import PROGRAMS, InFolder, needs_commands
from tests.test_dumps import dump_java


class GrowthOfDumps(InFolder):
    def grown(self, *dumps):
        """The bytes that became more, by what holds them."""
        with contextlib.redirect_stdout(io.StringIO()) as said:
            self.assertEqual(growth(list(dumps)), 0)
        found = {}
        for line in said.getvalue().splitlines():
            of_bytes = re.match(r"\+([\d,]+) bytes of .* a dump, held by (.*) \(", line)
            of_objects = re.match(r"\+[\d,]+ .* a dump, ([\d,]+) bytes, held by (.*) \(", line)
            match = of_bytes or of_objects
            if match:
                found[match.group(2)] = max(found.get(match.group(2), 0), int(match.group(1).replace(",", "")))
        return found

    def hold(self, found, names):
        """Each of these holds so many bytes more, but for a few, and stands before all others."""
        self.assertEqual(list(found)[: len(names)], list(names), found)
        for name, size in names.items():
            self.assertAlmostEqual(found[name] / size, 1, delta=0.02, msg=name)

    @needs_commands("java", "javac", "jcmd")
    def test_on_a_jvm(self):
        subprocess.run(["javac", "-d", self.folder, os.path.join(PROGRAMS, "Growing.java")], check=True, timeout=300)
        found = self.grown(*(dump_java(self.folder, rounds, rounds, main="Growing") for rounds in "12"))
        of_class = "class Growing."
        self.hold(found, {of_class + "BUFFER": 3000000, of_class + "numbers": 2000000, of_class + "TEXTS": 1000000})

    @needs_commands("node")
    def test_on_node(self):
        dumps = [self.path(rounds) for rounds in "12"]
        for dump in dumps:
            words = ["node", os.path.join(PROGRAMS, "growing.js"), dump, os.path.basename(dump)]
            subprocess.run(words, check=True, timeout=300, stdout=subprocess.PIPE)
        self.hold(self.grown(*dumps), {"Cache.buffer": 3000000, "Cache.numbers": 2000000, "Cache.texts": 1000000})


if __name__ == "__main__":
    unittest.main()

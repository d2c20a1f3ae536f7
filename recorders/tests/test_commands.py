"""All commands take --help and --version, and the shells' completions know what they take."""
import io
import os
import shutil
import subprocess
import unittest
from contextlib import redirect_stdout

from tests.support import RECORDERS, InFolder

from gcaudit_trace.commands import completions
from gcaudit_trace.version import VERSION


class Words(unittest.TestCase):
    def test_version_and_help(self):
        found = completions.parsers()
        self.assertEqual(len(found), 12)
        for name, parser in found.items():
            for word, expected in (("--version", "%s %s\n" % (name, VERSION)), ("--help", "usage: %s " % name)):
                said = io.StringIO()
                with redirect_stdout(said), self.assertRaises(SystemExit) as caught:
                    parser.parse_args([word])
                self.assertEqual(caught.exception.code, 0)
                self.assertTrue(said.getvalue().startswith(expected), said.getvalue())

    def test_the_version_is_that_of_the_programs(self):
        with open(os.path.join(RECORDERS, "pyproject.toml")) as file:
            self.assertIn('\nversion = "%s"\n' % VERSION, file.read())
        path = os.path.join(os.path.dirname(RECORDERS), "VERSION")
        if os.path.exists(path):
            with open(path) as file:
                self.assertEqual(file.read().strip(), VERSION)


class Completions(InFolder):
    def completed(self, *words):
        """What bash offers for the last of these words."""
        with open(self.path("completions"), "w") as file:
            file.write(completions.bash())
        text = 'source "$1"; shift; COMP_WORDS=("$@"); COMP_CWORD=$(($# - 1)); _gcaudit_recorders "$1"; printf "%s\\n" "${COMPREPLY[@]}"'
        done = subprocess.run(
            ["bash", "-c", text, "bash", self.path("completions"), *words],
            stdout=subprocess.PIPE,
            cwd=self.folder,
            check=True,
        )
        return sorted(done.stdout.decode().split())

    @unittest.skipIf(shutil.which("bash") is None, "bash is not there")
    def test_bash(self):
        self.assertEqual(self.completed("gcaudit-view", "--h"), ["--help", "--html"])
        self.assertEqual(self.completed("/usr/bin/gcaudit-view", "--re"), ["--react"])
        self.assertEqual(self.completed("gcaudit-view", "--react", ""), ["force", "halt", "report"])
        self.assertEqual(self.completed("gcaudit-from-hprof", "--owned"), ["--owned-by"])
        self.assertEqual(self.completed("gcaudit-view", "compl"), ["completions"])
        self.assertEqual(self.completed("gcaudit-jvm", "--gr"), ["--growth"])
        self.assertEqual(self.completed("gcaudit-jvm", "--de"), ["--dead"])
        self.assertEqual(self.completed("gcaudit-jvm", "--snap"), [])

    def test_zsh_has_all_options(self):
        text = completions.zsh()
        for name, parser in completions.parsers().items():
            part = text.split("\n  %s) _arguments" % name)[1].split(" ;;\n")[0]
            for action in parser._actions:
                if action.option_strings:
                    self.assertRegex(part, r"'\*?%s\[" % action.option_strings[-1])

    @unittest.skipIf(shutil.which("zsh") is None, "zsh is not there")
    def test_zsh_reads_it(self):
        with open(self.path("completions"), "w") as file:
            file.write(completions.zsh())
        subprocess.run(["zsh", "-n", self.path("completions")], check=True)


if __name__ == "__main__":
    unittest.main()

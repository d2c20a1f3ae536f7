"""The whole heap of a dump as a graph: with numpy and without it is the same; and what the JVM holds unseen is told from garbage."""
import importlib.util
import os
import subprocess
import unittest
from array import array
from unittest import mock

from gcaudit_trace.graphs.dominators import kept_alone
from gcaudit_trace.progress import Progress
from heapsnapshot_to_trace.edges import Edges, needed
from hprof_to_trace.held_by_jvm import Held, Unheld
from hprof_to_trace.whole_graph import graph_of
from tests.support import PROGRAM, PROGRAMS, InFolder, needs_commands, needs_program
from tests.test_dumps import dump_java, hprof_to_trace, run, written_hprof

from gcaudit_trace import audit

HAS_NUMPY = importlib.util.find_spec("numpy") is not None


def content(graph):
    """All that a graph says, without the numbers of its types and labels, and without the order of what a node holds."""
    held = []
    for node in range(len(graph)):
        edges = range(graph.starts[node], graph.starts[node + 1])
        held.append(sorted((graph.label_texts[graph.labels[edge]], graph.targets[edge]) for edge in edges))
    types = [graph.type_of(node) for node in range(len(graph))]
    return types, list(graph.sizes), held, sorted(graph.roots)


@unittest.skipUnless(HAS_NUMPY, "numpy is not there")
class WithNumpy(InFolder):
    def both(self, dump):
        found = []
        for without in ("", "1"):
            with mock.patch.dict(os.environ, GCAUDIT_WITHOUT_NUMPY=without), open(dump, "rb") as file:
                found.append(graph_of(file, dump, Progress("test")))
        with_numpy, plain = map(content, found)
        for one, other in zip(with_numpy, plain):
            self.assertEqual(one, other)
        kept = []
        for graph, without in zip(found, ("", "1")):
            with mock.patch.dict(os.environ, GCAUDIT_WITHOUT_NUMPY=without):
                kept.append(kept_alone(graph))
        self.assertEqual(list(kept[0].bytes), list(kept[1].bytes))
        return plain

    def test_written_dumps(self):
        for code in "IQ":
            with open(self.path("dump"), "wb") as file:
                file.write(written_hprof(code, ["kept/A", "out/B", "java/lang/String"]))
            types, _, held, _ = self.both(self.path("dump"))
            first = types.index("kept.A")
            self.assertEqual([(label, types[to]) for label, to in held[first]], [(".next\n", "out.B")])

    @needs_commands("java", "javac", "jcmd")
    def test_the_dump_of_a_program(self):
        source = os.path.join(PROGRAMS, "PluginLeaks.java")
        subprocess.run(["javac", "-Xlint:none", "-d", self.folder, source], check=True, timeout=300)
        _, _, _, roots = self.both(dump_java(self.folder, "dump", main="PluginLeaks"))
        self.assertTrue([name for name, _ in roots if name.startswith("held by the JVM")])


def held(*objects):
    """What objects hold, by codes."""
    starts, codes = array("Q", [0]), array("i")
    for one in objects:
        codes.extend(one)
        starts.append(len(codes))
    return Held(starts, codes)


class HeldByJvm(InFolder):
    def test_what_nothing_leads_to(self):
        # 1 is reached and holds -1, which holds 2. 3 holds 4; 5 and 6 hold each other, and 6 holds 7; -2 holds nothing.
        kept = held([-1], [], [4], [], [6], [5, 7], [])
        left = held([2], [])
        unheld = Unheld(kept, left, [1])
        self.assertEqual(sorted(unheld.origins(9, lambda code: 1)), [-2, 3, 5])
        self.assertEqual(Unheld(kept, left, [1]).origins(2, lambda code: 1), [])  # there is garbage
        self.assertEqual(sorted(Unheld(kept, left, [1]).origins(1, lambda code: code == 3)), [-2, 3, 5])
        self.assertEqual(Unheld(kept, left, [1, 3, 6, -2]).origins(0, lambda code: 1), [])

    def test_a_long_chain(self):
        size = 50000
        unheld = Unheld(held(*([at + 2] for at in range(size - 1)), [1]), held(), [])
        self.assertEqual(len(unheld.origins(1, lambda code: 1)), 1)

    @needs_program
    @needs_commands("java", "javac", "jcmd")
    def test_garbage_is_not_held(self):
        """A dump of all objects has garbage, of which none is said to be held by the JVM."""
        source = os.path.join(PROGRAMS, "PluginLeaks.java")
        subprocess.run(["javac", "-Xlint:none", "-d", self.folder, source], check=True, timeout=300)
        dump = dump_java(self.folder, "all", main="PluginLeaks", all_objects=True)
        words = ["--dead", "PluginLeaks$ReleasedOfClassData", "--dead", "PluginLeaks$ReleasedOfListInClassData"]
        status, said = run(hprof_to_trace, dump, self.path("trace.jsonl"), *words)
        self.assertEqual(status, 0, said)
        self.assertNotIn("no object of the class", said)  # they are there, as garbage
        self.assertEqual(audit(self.path("trace.jsonl"), PROGRAM).status, 0)


class References(unittest.TestCase):
    def test_those_that_wait(self):
        """Of two edges that wait and lead to the same node one is needed; none is where another edge leads there."""
        found = [(0, 1), (0, 2), (1, 3), (1, 4), (2, 3), (2, 4), (3, 5)]
        weak = (2, 4)
        edges = Edges()
        edges.add(bytes(one == weak for one in found), range(len(found)), [to for _, to in found])
        edges.settle([sum(holder == node for holder, _ in found) for node in range(6)])

        def those_needed(waiting, passed=()):
            waits, is_passed = bytes(one in waiting for one in found), bytes(node in passed for node in range(6))
            return [found[edge] for edge in needed(edges, 1, is_passed, waits)]

        self.assertEqual(those_needed([(1, 3), (2, 3)]), [(1, 3)])
        self.assertEqual(those_needed([(1, 3), (2, 3), (3, 5)]), [(1, 3), (3, 5)])
        self.assertEqual(those_needed([(1, 4), weak]), [(1, 4)])
        self.assertEqual(those_needed([(1, 3)]), [])
        self.assertEqual(those_needed([(1, 3), (2, 3)], passed=[1]), [(2, 3)])


if __name__ == "__main__":
    unittest.main()

"""What is reached in dumps, against other readers of them: VisualVM's library, the JVM's own histogram, and a plain reading of snapshots."""
import json
import os
import re
import subprocess
import unittest
from collections import Counter
from unittest import mock

from gcaudit_trace.graphs.dominators import kept_alone
from gcaudit_trace.progress import Progress
from heapsnapshot_to_trace.whole_graph import graph_of as graph_of_snapshot
from hprof_to_trace.whole_graph import graph_of
from tests.support import PROGRAMS, InFolder, needs_commands
from tests.test_dumps import dump_java

LIBRARY = "/usr/share/visualvm/visualvm/modules/org-graalvm-visualvm-lib-jfluid-heap.jar"
OF_JAVA = [
    ("SessionLeak", "leak"),
    ("SessionLeak", "clean"),
    ("SessionLeak", "leak", "500"),
    ("Leaks",),
    ("MoreLeaks",),
    ("Subclasses", "leak"),
    ("Subclasses", "clean"),
    ("Growing", "1"),
    ("HoldsCompiler", "1"),
    ("PluginLeaks",),
]
OF_NODE = [
    ("session_leak.js", "leak", "DUMP"),
    ("session_leak.js", "clean", "DUMP"),
    ("session_leak.js", "leak", "DUMP", "2000"),
    ("leaks.js", "DUMP"),
    ("subclasses.js", "leak", "DUMP"),
    ("subclasses.js", "clean", "DUMP"),
    ("growing.js", "DUMP", "1"),
    ("growing.js", "DUMP", "2"),
    ("more_leaks.js", "DUMP"),
    ("more_leaks.js", "DUMP", "clean"),
]


# What of a dump VisualVM's library doesn't know: the JVM's own threads, for which a dump has no root; what the JVM holds for classes in
# places of which a dump doesn't tell; that an array keeps the class of its elements; and that what waits for its finalizer is held.
MORE_ROOTS = re.compile(
    r"held by the JVM( #\d+)?$|thread (C[12] CompilerThread\d+|(Service|Monitor Deflation|Sweeper) [Tt]hread)$"
)
HELD_BY_JVM = re.compile(
    r"java\.lang\.(String|ref\.SoftReference|reflect\.Constructor|ClassValue\$ClassValueMap|Class\$AnnotationData)"
    r"|java\.util\.(HashMap|ImmutableCollections\$List(12|N))|javax\.[\w.$]+\[\]"  # constants of enumerations
    r"|PluginLeaks\$Of(CircleIn)?ClassData"
)


def is_more(graph, node, edge):
    """Whether VisualVM doesn't follow a reference."""
    label = graph.label_texts[graph.labels[edge]]
    return label == ".referent" or label == "<class>" and graph.type_of(node).endswith("[]")


def counts(graph):
    """By type all objects, those that roots reach, and those that are reached without what VisualVM doesn't know; without the classes themselves."""
    known, work = set(), [node for name, node in graph.roots if not MORE_ROOTS.match(name)]
    while work:
        node = work.pop()
        if node not in known:
            known.add(node)
            edges = range(graph.starts[node], graph.starts[node + 1])
            work += [graph.targets[edge] for edge in edges if not is_more(graph, node, edge)]
    names = [Counter(map(graph.type_of, nodes)) for nodes in (range(len(graph)), kept_alone(graph).order, known)]
    return [Counter({name: count for name, count in one.items() if not name.startswith("class ")}) for one in names]


@needs_commands("java", "javac", "jcmd")
class Java(InFolder):
    def setUp(self):
        super().setUp()
        names = sorted({words[0] for words in OF_JAVA})
        sources = [os.path.join(PROGRAMS, name + ".java") for name in names]
        if subprocess.run(["javac", "-Xlint:none", "-d", self.folder, *sources], stderr=subprocess.DEVNULL).returncode:
            self.skipTest("the compiler knows no records")

    def graph_of(self, dump):
        with open(dump, "rb") as file:
            return graph_of(file, dump, Progress("test"))

    @unittest.skipUnless(os.path.exists(LIBRARY), "VisualVM is not there (Debian: visualvm)")
    def test_visualvm(self):
        """As many objects of each class, and as many reached of each, but for what is named above; that leads to nothing unexpected."""
        source = os.path.join(PROGRAMS, "ReachedByVisualVM.java")
        subprocess.run(["javac", "-Xlint:none", "-cp", LIBRARY, "-d", self.folder, source], check=True, timeout=300)
        for words in OF_JAVA:
            dump = dump_java(self.folder, "-".join(words), *words[1:], main=words[0])
            command = ["java", "-cp", self.folder + os.pathsep + LIBRARY, "ReachedByVisualVM", dump]
            said = subprocess.run(command, stdout=subprocess.PIPE, check=True, timeout=600).stdout.decode()
            found, reached = Counter(), Counter()
            for line in said.splitlines():
                name, count, of_these = line.rsplit(" ", 2)
                found[name] += int(count)
                reached[name] += int(of_these)
            graph = self.graph_of(dump)
            all_of_them, ours, known = counts(graph)
            self.assertEqual(+all_of_them, +found, words)
            self.assertEqual(+known, +reached, words)
            self.assertEqual(known - ours, Counter(), words)
            held = {graph.type_of(node) for name, node in graph.roots if name.startswith("held by the JVM")}
            self.assertEqual([name for name in held if not HELD_BY_JVM.fullmatch(name)], [], words)
            due = Counter(
                graph.type_of(graph.targets[edge])
                for edge, label in enumerate(graph.labels)
                if graph.label_texts[label] == ".referent"
            )
            self.assertLessEqual(set(due), {"MoreLeaks$OfDueFinalizer"}, words)
            os.unlink(dump)

    def test_the_histogram_of_the_jvm(self):
        """The classes of the program have as many objects as the JVM itself counts."""
        histogram = os.path.join(self.folder, "histogram")
        run = subprocess.run

        def dump_and_count(words, *more, **named):
            done = run(words, *more, **named)
            if words[0] == "jcmd":
                with open(histogram, "wb") as file:
                    run(["jcmd", words[1], "GC.class_histogram"], stdout=file, check=True, timeout=120)
            return done

        with mock.patch("subprocess.run", dump_and_count):
            dump = dump_java(self.folder, "dump", main="MoreLeaks")
        with open(histogram) as file:
            lines = re.findall(r"^ *\d+: +(\d+) +\d+ +(MoreLeaks\S*)", file.read(), re.MULTILINE)
        wanted = Counter({name: int(count) for count, name in lines})
        self.assertGreater(len(wanted), 20)
        found = counts(self.graph_of(dump))[0]
        self.assertEqual(
            {name: found[name] for name in wanted if "Lambda" not in name},
            {name: count for name, count in wanted.items() if "Lambda" not in name},
        )


@needs_commands("node")
class Node(InFolder):
    def test_a_plain_reading(self):
        """As many objects, and as many reached, as by the meaning of the format: all edges but weak ones, from the first node on."""
        for words in OF_NODE:
            dump = self.path("dump")
            command = [
                "node",
                os.path.join(PROGRAMS, words[0]),
                *(dump if word == "DUMP" else word for word in words[1:]),
            ]
            subprocess.run(command, check=True, timeout=300, stdout=subprocess.PIPE)
            with open(dump) as file:
                found = json.load(file)
            meta, numbers, edges = found["snapshot"]["meta"], found["nodes"], found["edges"]
            width, edge_width = len(meta["node_fields"]), len(meta["edge_fields"])
            weak = meta["edge_types"][0].index("weak")
            count_at = meta["node_fields"].index("edge_count")
            held, at = [], 0
            for start in range(0, len(numbers), width):
                end = at + edge_width * numbers[start + count_at]
                held.append([edges[edge + 2] // width for edge in range(at, end, edge_width) if edges[edge] != weak])
                at = end
            reached, work = set(), [0]
            while work:
                node = work.pop()
                if node not in reached:
                    reached.add(node)
                    work += held[node]
            with open(dump, "rb") as file:
                graph = graph_of_snapshot(file, dump, Progress("test"))
            self.assertEqual((len(graph), len(kept_alone(graph).order)), (len(held) - 1, len(reached) - 1), words)


if __name__ == "__main__":
    unittest.main()

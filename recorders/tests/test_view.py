"""gcaudit-summary, gcaudit-growth and gcaudit-view: for whoever has only a suspicion."""
import html.parser
import json
import os
import re
import shutil
import subprocess
import sys
import unittest
from xml.etree import ElementTree

from tests.browser import CHROMIUM, Browser
from tests.test_dumps import written_hprof
from tests.support import PROGRAM, RECORDERS, InFolder, needs_program, python_with

from gcaudit_recorder import Recorder

SCHEMAS = os.path.join(RECORDERS, "tests", "schemas")
HOSTILE = "</script><b>&\"'x"


def trace_of(*lines):
    return "".join(json.dumps(line) + "\n" for line in lines)


def alloc(number, type_name, slots=0, size=10):
    return {"op": "alloc", "id": number, "type": type_name, "slots": slots, "bytes": size}


def store(at, slot, to, label):
    return {"op": "store", "at": at, "slot": slot, "to": to, "label": label}


# Three sessions that must be dead, two of them in a list of listeners; the first holds a buffer that must be dead too.
LEAK = [
    alloc(1, "Bus", 1),
    alloc(2, "list", 3),
    alloc(3, "Session", 1),
    alloc(4, "Session", 1),
    alloc(5, "Buffer", 0, 1000),
    alloc(6, "Cache", 1),
    alloc(7, "Session"),
    store(1, 0, 2, ".listeners"),
    store(2, 0, 3, "[0]"),
    store(2, 1, 4, "[1]"),
    store(3, 0, 5, ".buffer"),
    store(6, 0, 7, "['" + HOSTILE + "']"),
    {"op": "root", "name": "bus", "to": 1},
    {"op": "root", "name": "cache", "to": 6},
]
DEAD = [{"op": "assert-dead", "id": number} for number in (3, 4, 5, 7)]
UNSHARED = [{"op": "assert-unshared", "id": 5}, store(4, 0, 5, ".buffer")]
ONE_BUS = {"op": "assert-instances", "type": "Bus", "limit": 1}  # which holds
COLLECT = {"op": "collect"}


class Commands(InFolder):
    def write(self, *lines, name="trace.jsonl"):
        with open(self.path(name), "w") as file:
            file.write(trace_of(*lines))
        return self.path(name)

    def run_module(self, module, *words):
        return subprocess.run(
            [sys.executable, "-B", "-m", "gcaudit_trace.commands." + module, *words],
            stdout=subprocess.PIPE,
            stderr=subprocess.PIPE,
            env=dict(os.environ, PYTHONPATH=RECORDERS),
            cwd=self.folder,
        )

    def said(self, module, *words, status=0):
        done = self.run_module(module, *words)
        self.assertEqual((done.returncode, done.stderr.decode()), (status, ""))
        return done.stdout.decode()


class Summary(Commands):
    def test_types_and_roots(self):
        self.assertEqual(
            self.said("summary", self.write(*LEAK, COLLECT)).split("\n"),
            [
                "7 objects, 1,060 bytes",
                "",
                "objects  bytes  kept alone  bytes kept alone  type",
                "      1  1,000           1             1,000  Buffer",
                "      3     30           4             1,030  Session",
                "      1     10           5             1,040  Bus",
                "      1     10           2                20  Cache",
                "      1     10           4             1,030  list",
                "",
                "reaches  kept alone  bytes kept alone  root",
                "      5           5             1,040  bus",
                "      2           2                20  cache",
                "",
            ],
        )

    def test_the_last_collection_counts(self):
        trace = self.write(
            *LEAK,
            COLLECT,
            {"op": "root", "name": "bus", "to": None},
            COLLECT,
            {"op": "root", "name": "cache", "to": None},
        )
        self.assertIn("2 objects, 20 bytes", self.said("summary", trace, "--top", "1"))
        self.assertIn("and 1 types more", self.said("summary", trace, "--top", "1"))

    def test_what_no_root_reaches_is_counted(self):
        """All objects of a dump count: here two classes, an object of each, and an array of three chars that nothing holds."""
        with open(self.path("dump"), "wb") as file:
            file.write(written_hprof("I", ["A", "B"]))
        found = self.said("summary", self.path("dump")).split("\n")
        self.assertEqual(found[0], "5 objects, 54 bytes; no root reaches 1 of them, 14 bytes")
        self.assertIn("      1     14           0                 0  char[]", found)

    def test_without_bytes(self):
        lines = [{name: value for name, value in line.items() if name != "bytes"} for line in LEAK]
        said = self.said("summary", self.write(*lines, COLLECT))
        self.assertTrue(said.startswith("7 objects\n\nobjects  kept alone  type\n      3           4  Session\n"), said)

    def test_what_would_be_replaced(self):
        trace = self.write(*LEAK, COLLECT)
        for words in (
            ["view", trace, "--sarif", trace],
            ["view", trace, "--html", self.path("out"), "--junit", self.path("out")],
            ["summary", trace, "--output", trace],
            ["growth", trace, trace, "--output", trace],
        ):
            done = self.run_module(*words)
            self.assertEqual((done.returncode, done.stdout), (2, b""))
            self.assertRegex(
                done.stderr.decode(), r"^gcaudit-\w+: %s would be replaced: [^\n]+\n$" % re.escape(words[-1])
            )
        self.assertEqual(os.listdir(self.folder), ["trace.jsonl"])
        done = self.run_module("summary", trace, "--top", "-3")
        self.assertIn(b"argument --top: a number from 0 on is needed, not -3\n", done.stderr)

    def test_what_is_refused(self):
        for text in ("", "hello", "{}", '{"op":"alloc","id":1,"type":"A"}\n', '{"snapshot":{}}', "JAVA PROFILE 9"):
            with open(self.path("file"), "w") as file:
                file.write(text)
            for module in ("summary", "growth"):
                done = self.run_module(module, self.path("file"))
                self.assertEqual((done.returncode, done.stdout), (2, b""))
                self.assertRegex(done.stderr.decode(), r"^gcaudit-%s: [^\n]+\n$" % module)


class Growth(Commands):
    def test_collections_of_a_trace(self):
        trace = self.write(
            *LEAK,
            COLLECT,
            alloc(10, "Session", 1),
            alloc(11, "Buffer", 0, 100),
            store(2, 2, 10, "[2]"),
            store(10, 0, 11, ".buffer"),
            COLLECT,
            alloc(12, "Session", 1),
            alloc(13, "Buffer", 0, 100),
            store(4, 0, 12, ".next"),
            store(12, 0, 13, ".buffer"),
            COLLECT,
        )
        self.assertEqual(
            self.said("growth", trace).split("\n"),
            [
                "+0.5 Session a collection, 5 bytes, held by Bus.listeners (2 -> 3 -> 3)",
                "    its objects keep 2 objects more alone a collection, 110 bytes",
                "  +1 Buffer a collection, 100 bytes, held by Session.buffer (1 -> 2 -> 3)",
                "  +0.5 Session a collection, 5 bytes, held by Session.next (0 -> 0 -> 1)",
                "",
            ],
        )

    def test_bytes_alone(self):
        """A buffer that grows, and texts of a cache: no object more of the first, and few of the second."""

        def heap(name, size, texts):
            lines = [alloc(1, "Cache", 3), alloc(2, "bytearray", 0, size), alloc(3, "dict", 9, 100 + texts)]
            lines += [store(1, 0, 2, ".buffer"), store(1, 1, 3, ".entries")]
            for at in range(texts):
                lines += [alloc(4 + at, "str", 0, 5000), store(3, at, 4 + at, "['k%d']" % at)]
            lines += [alloc(20 + at, "Small") for at in range(2 * texts)] + [
                alloc(50, "list", 9),
                store(1, 2, 50, ".small"),
            ]
            lines += [store(50, at, 20 + at, "[%d]" % at) for at in range(2 * texts)]
            return self.write(*lines, {"op": "root", "name": "cache", "to": 1}, COLLECT, name=name)

        heaps = [heap("%d.jsonl" % at, 1000 + 20000 * at, at) for at in range(3)]
        of_buffer = (
            "+20,000 bytes of bytearray a dump, held by Cache.buffer (1 object, 1,000 -> 21,000 -> 41,000 bytes)"
        )
        of_texts = [
            "+1 str a dump, 5,000 bytes, held by Cache.entries (0 -> 1 -> 2)",
            "    its objects keep 1 objects more alone a dump, 5,000 bytes",
        ]
        of_small = [
            "+2 Small a dump, 20 bytes, held by Cache.small (0 -> 2 -> 4)",
            "    its objects keep 2 objects more alone a dump, 20 bytes",
        ]
        of_dict = "+1 bytes of dict a dump, held by Cache.entries (1 object, 100 -> 101 -> 102 bytes)"
        self.assertEqual(self.said("growth", *heaps).split("\n"), [of_buffer, *of_texts, *of_small, of_dict, ""])
        by_objects = [*of_small, *of_texts, of_buffer, of_dict, ""]
        self.assertEqual(self.said("growth", "--by", "objects", *heaps).split("\n"), by_objects)
        self.assertEqual(self.said("growth", "--top", "1", *heaps), of_buffer + "\nand 3 more lines\n")

    def test_what_is_kept_alone_is_that_of_the_holder(self):
        """Sessions of two holders grow: each line tells what its own keep."""

        def heap(name, first, second):
            lines = [alloc(1, "Bus", 9), alloc(2, "Log", 9)]
            for at in range(first):
                lines += [alloc(10 + at, "Session", 1, 7), store(1, at, 10 + at, ".a[%d]" % at)]
            for at in range(second):
                lines += [alloc(20 + 2 * at, "Session", 1, 7), store(2, at, 20 + 2 * at, ".b[%d]" % at)]
                lines += [alloc(21 + 2 * at, "Buffer", 0, 900), store(20 + 2 * at, 0, 21 + 2 * at, ".buffer")]
            roots = [{"op": "root", "name": name, "to": to} for name, to in (("bus", 1), ("log", 2))]
            return self.write(*lines, *roots, COLLECT, name=name)

        found = self.said("growth", heap("a", 1, 1), heap("b", 4, 3)).split("\n")
        self.assertEqual(
            found,
            [
                "+3 Session a dump, 21 bytes, held by Bus.a[*] (1 -> 4)",
                "    its objects keep 3 objects more alone a dump, 21 bytes",
                "+2 Session a dump, 14 bytes, held by Log.b[*] (1 -> 3)",
                "    its objects keep 4 objects more alone a dump, 1,814 bytes",
                "  +2 Buffer a dump, 1,800 bytes, held by Session.buffer (1 -> 3)",
                "",
            ],
        )

    def test_two_traces(self):
        first, second = self.write(*LEAK, COLLECT), self.write(
            *LEAK, alloc(9, "Session"), store(2, 2, 9, "[2]"), COLLECT, name="second.jsonl"
        )
        self.assertEqual(
            self.said("growth", first, second).split("\n")[0],
            "+1 Session a dump, 10 bytes, held by Bus.listeners (2 -> 3)",
        )
        self.assertEqual(self.said("growth", second, first), "nothing grew\n")

    def test_one_heap_is_refused(self):
        done = self.run_module("growth", self.write(*LEAK, COLLECT))
        self.assertIn(b"two heaps at least are compared", done.stderr)

    def test_rounds_of_a_program(self):
        class Bus:
            def __init__(self):
                self.listeners = []

        class Session:
            def __init__(self):
                self.data = {}

        bus, cache = Bus(), {}

        def work():
            bus.listeners.append(Session())
            cache["last"] = Session()

        with Recorder(self.path("trace.jsonl"), {"bus": bus, "cache": cache}) as recorder:
            growth = recorder.growth(3, work)
            self.assertRegex(
                str(growth).split("\n")[0],
                r"^\+1 \S+Session a round, \d+ bytes, held by \S+Bus\.listeners \(1 -> 2 -> 3 -> 4\)$",
            )
            self.assertRegex(
                str(growth).split("\n")[1],
                r"^  \+1 dict a round, \d+ bytes, held by \S+Session\.data \(2 -> 3 -> 4 -> 5\)$",
            )
            self.assertEqual(str(recorder.growth(2, lambda: None)), "nothing grew")


@needs_program
class View(Commands):
    def view(self, *words, status=1):
        return self.said("view", *words, "--gcaudit", PROGRAM, status=status)

    def test_groups(self):
        self.assertEqual(
            self.view(self.write(*LEAK, *DEAD, COLLECT)).split("\n"),
            [
                "Session (2 times) must be dead and is reached (collection 1; they keep 3 objects, 1,020 bytes alive alone; "
                "1 more that must be dead hang from them: Buffer 1)",
                "    root bus -> 1 Bus .listeners -> 2 list [0] -> 3 Session",
                "Session must be dead and is reached (collection 1; keeps 1 object, 10 bytes alive alone)",
                "    root cache -> 6 Cache ['%s'] -> 7 Session" % HOSTILE,
                "4 violations in 2 groups; 1 collections",
                "",
            ],
        )

    def test_what_differs_from_object_to_object_is_one_group(self):
        """As V8 tells it: a map's table with its length, and labels with numbers of objects."""
        lines, roots = [alloc(1, "Map", 200)], [{"op": "root", "name": "map", "to": 1}]
        for at in range(200):
            table, session = 2 * at + 2, 2 * at + 3
            lines += [alloc(table, "array (%d)" % (at + 4), 1), alloc(session, "Session")]
            roots += [
                store(1, at, table, ".table"),
                store(table, 0, session, "%d / part of key (Object @%d)" % (at, at + 88985)),
            ]
            roots.append({"op": "assert-dead", "id": session})
        for words in ([], ["--paths", "3"]):
            said = self.view(self.write(*lines, *roots, COLLECT), "--junit", self.path("junit.xml"), *words).split("\n")
            self.assertEqual(
                said,
                [
                    "Session (200 times) must be dead and is reached (collection 1; they keep 200 objects, 2,000 bytes alive alone)",
                    "    root map -> 1 Map .table -> 2 array (4) 0 / part of key (Object @88985) -> 3 Session",
                    "200 violations in 1 groups; 1 collections",
                    "",
                ],
            )
            case = ElementTree.parse(self.path("junit.xml")).getroot()[0].find("testcase")
            name = "dead Session root map -> Map .table -> array (*) * / part of key (Object @*) -> Session"
            self.assertEqual(case.get("name"), name)

    def test_a_cause_whose_path_was_left_out(self):
        """The report has the path of the first violation alone, which is a buffer's and leads through the session."""
        lines = [
            alloc(1, "Buffer"),
            alloc(2, "Session", 1),
            store(2, 0, 1, ".buffer"),
            {"op": "root", "name": "a", "to": 2},
            {"op": "assert-dead", "id": 1},
            {"op": "assert-dead", "id": 2},
            COLLECT,
        ]
        for paths, path in (("1", "path left out"), ("2", "root a -> 2 Session")):
            self.assertEqual(
                self.view(self.write(*lines), "--paths", paths).split("\n"),
                [
                    "Session must be dead and is reached (collection 1; keeps 2 objects, 20 bytes alive alone; "
                    "1 more that must be dead hang from it: Buffer 1)",
                    "    " + path,
                    "2 violations in 1 groups; 1 collections",
                    "",
                ],
            )

    def test_what_a_group_keeps_is_counted_once(self):
        """The third node is kept by the second, and both are one group. What is largest comes first."""
        lines = [
            alloc(1, "Small", 0, 1),
            alloc(2, "Node", 1),
            alloc(3, "Node", 1),
            alloc(4, "Node", 1),
            alloc(5, "Text", 0, 500),
            store(2, 0, 3, ".next"),
            store(3, 0, 4, ".next"),
            store(4, 0, 5, ".text"),
            {"op": "root", "name": "a", "to": 1},
            {"op": "root", "name": "b", "to": 2},
            {"op": "assert-dead", "id": 1},
            {"op": "assert-ownedby", "owner": 1, "ownee": 3},
            {"op": "assert-ownedby", "owner": 1, "ownee": 4},
            COLLECT,
        ]
        self.assertEqual(
            self.view(self.write(*lines)).split("\n")[::2],
            [
                "Node (2 times) outlives its owner's hold on it (collection 1; its owner, object 1, doesn't lead to it; "
                "they keep 3 objects, 520 bytes alive alone)",
                "Small must be dead and is reached (collection 1; keeps 1 object, 1 bytes alive alone)",
                "3 violations in 2 groups; 1 collections",
            ],
        )

    def test_other_kinds(self):
        trace = self.write(
            *LEAK,
            *UNSHARED,
            {"op": "assert-instances", "type": "Session", "limit": 2},
            {"op": "assert-ownedby", "owner": 6, "ownee": 3},
            COLLECT,
        )
        said = self.view(trace)
        self.assertIn(
            "Session has more objects than its limit: 3, and the limit is 2 (collection 1; keeps 3 objects, 30 bytes alive alone)\n",
            said,
        )
        self.assertIn(
            "Buffer may have one reference and has more (collection 1; 2 references; keeps 1 object, 1,000 bytes alive alone)\n",
            said,
        )
        self.assertIn(
            "Session outlives its owner's hold on it (collection 1; its owner, object 6, doesn't lead to it; ", said
        )

    def test_no_violation(self):
        trace = self.write(*LEAK, ONE_BUS, COLLECT)
        said = self.view(
            trace,
            "--html",
            self.path("page.html"),
            "--junit",
            self.path("junit.xml"),
            "--sarif",
            self.path("all.sarif"),
            status=0,
        )
        self.assertEqual(said, "0 violations in 0 groups; 1 collections\n")
        suite = ElementTree.parse(self.path("junit.xml")).getroot()[0]
        self.assertEqual((suite.get("tests"), suite.get("failures")), ("1", "0"))
        with open(self.path("all.sarif")) as file:
            self.assertEqual(json.load(file)["runs"][0]["results"], [])

    def written(self, form, *lines):
        """The file of this form for a trace; the report is the same each time."""
        self.view(self.write(*lines, name="a trace é.jsonl"), "--" + form, self.path("out." + form))
        return self.path("out." + form)

    def test_junit(self):
        path = self.written("junit", *LEAK, *DEAD, *UNSHARED, COLLECT)
        suite = ElementTree.parse(path).getroot()[0]
        self.assertEqual((suite.get("tests"), suite.get("failures")), ("3", "3"))
        self.assertEqual([len(case.findall("failure")) for case in suite.findall("testcase")], [1, 1, 1])
        self.assertIn("root cache -> 6 Cache ['%s'] -> 7 Session" % HOSTILE, suite.findall("testcase")[2][0].text)
        if shutil.which("xmllint") is None:
            self.skipTest("xmllint is not there")
        for schema in ("jenkins-junit-10.xsd", "ant-junit.xsd"):
            done = subprocess.run(
                ["xmllint", "--noout", "--schema", os.path.join(SCHEMAS, schema), path], stderr=subprocess.PIPE
            )
            self.assertEqual(done.returncode, 0, done.stderr.decode())

    def test_names_of_tests_stay(self):
        """From run to run, where ids and indexes differ."""
        names = []
        for number, index in ((3, 0), (9, 2)):
            path = self.written(
                "junit",
                *LEAK[:2],
                alloc(number, "Session"),
                store(1, 0, 2, ".listeners"),
                store(2, index, number, "[%d]" % index),
                {"op": "root", "name": "bus", "to": 1},
                {"op": "assert-dead", "id": number},
                COLLECT,
            )
            names.append([case.get("name") for case in ElementTree.parse(path).getroot()[0].findall("testcase")])
        self.assertEqual(names, [["dead Session root bus -> Bus .listeners -> list [*] -> Session"]] * 2)

    def test_sarif(self):
        path = self.written("sarif", *LEAK, *DEAD, *UNSHARED, COLLECT)
        with open(path) as file:
            run = json.load(file)["runs"][0]
        rules = [rule["id"] for rule in run["tool"]["driver"]["rules"]]
        self.assertEqual([rules[result["ruleIndex"]] for result in run["results"]], ["unshared", "dead", "dead"])
        self.assertEqual([result["occurrenceCount"] for result in run["results"]], [1, 2, 1])
        self.assertEqual(
            run["results"][1]["locations"][0]["physicalLocation"]["artifactLocation"]["uri"], "a%20trace%20%C3%A9.jsonl"
        )
        self.assertEqual(run["results"][1]["properties"]["keptAlone"], {"objects": 2, "bytes": 20})

    @unittest.skipIf(python_with("jsonschema") is None, "jsonschema is not there")
    def test_sarif_by_its_schema(self):
        program = """
import json, sys, jsonschema
schema = json.load(open(sys.argv[1]))
checker = jsonschema.validators.validator_for(schema)(schema, format_checker=jsonschema.FormatChecker())
for path in sys.argv[2:]:
    checker.validate(json.load(open(path)))
"""
        found = [self.written("sarif", *LEAK, *DEAD, *UNSHARED, COLLECT), self.path("none.sarif")]
        self.view(self.write(*LEAK, ONE_BUS, COLLECT), "--sarif", found[1], status=0)
        subprocess.run(
            [python_with("jsonschema"), "-c", program, os.path.join(SCHEMAS, "sarif-2.1.0-rtm.4.json"), *found],
            check=True,
        )

    def test_the_page_stands_alone(self):
        with open(self.written("html", *LEAK, *DEAD, *UNSHARED, COLLECT)) as file:
            text = file.read()

        class Reader(html.parser.HTMLParser):
            tags, texts = [], []

            def handle_starttag(self, tag, attributes):
                self.tags.append(tag)
                for name, value in attributes:
                    assert name not in ("src", "href", "srcset", "action"), (tag, name, value)
                    assert not name.startswith("on"), name

        reader = Reader()
        reader.feed(text)
        self.assertEqual([reader.tags.count(tag) for tag in ("details", "svg", "script", "b")], [3, 4, 1, 3])
        self.assertNotIn("http", text)
        self.assertNotIn(HOSTILE, text)

    @unittest.skipIf(CHROMIUM is None, "chromium is not there")
    def test_the_page_in_a_browser(self):
        path = self.written("html", *LEAK, *DEAD, *UNSHARED, COLLECT)
        with Browser() as browser:
            browser.size(1000, 800)
            browser.open(path)
            shown = "Array.from(document.querySelectorAll('details')).filter(d => !d.hidden)"
            opened = "Array.from(document.querySelectorAll('details')).map(d => d.open)"
            focused = "Array.from(document.querySelectorAll('summary')).indexOf(document.activeElement)"
            self.assertEqual(browser.value(opened), [True, False, False])
            # By keyboard: to the search, to the heads of the groups, and folding.
            browser.key("/", "/")
            self.assertEqual(browser.value("document.activeElement.id"), "search")
            browser.type("cache session")
            self.assertEqual(browser.value(shown + ".length"), 1)
            self.assertEqual(browser.value("document.getElementById('shown').textContent"), "1 of 3 groups shown")
            browser.key("Escape")
            self.assertEqual(browser.value(shown + ".length"), 3)
            browser.key("ArrowDown")
            self.assertEqual(browser.value(focused), 0)
            browser.key("ArrowDown")
            self.assertEqual(browser.value(focused), 1)
            browser.key("Enter", "\r")
            self.assertEqual(browser.value(opened), [True, True, False])
            browser.key("Enter", "\r")
            self.assertEqual(browser.value(opened), [True, False, False])
            browser.value("document.getElementById('open').click()")
            self.assertEqual(browser.value(opened), [True, True, True])
            # Nothing of a name is read as a part of the page.
            self.assertEqual(browser.value("document.querySelectorAll('b').length"), 3)
            self.assertIn(HOSTILE, browser.value("document.querySelectorAll('pre')[1].textContent"))
            # On a phone nothing is wider than the page, and the pictures are whole.
            for width in (320, 390, 1000):
                browser.size(width, 800)
                self.assertLessEqual(browser.value("document.documentElement.scrollWidth"), width)
                self.assertTrue(
                    browser.value(
                        "Array.from(document.querySelectorAll('svg')).every(s => { var r = s.getBoundingClientRect(); "
                        "return r.left >= 0 && r.right <= %d && r.width > 150; })" % width
                    )
                )
            browser.value("document.getElementById('close').click()")
            self.assertEqual(browser.value(opened), [False, False, False])


if __name__ == "__main__":
    unittest.main()

"""The Python recorder inside real programs: each leak is found with its path, and the twin without it passes."""
import asyncio
import contextlib
import gc
import io
import os
import subprocess
import sys
import types
import unittest
import warnings
import weakref
from collections import deque

from tests.support import PROGRAM, RECORDERS, InFolder, events, needs_program, python_with
from tests.programs import service

from gcaudit_recorder import HeapViolation, Recorder, TraceError, UncheckedWarning, audited
from gcaudit_recorder.contents import shape_of, size_of, type_name
from gcaudit_trace import audit
from gcaudit_trace.graphs.trace_heap import heaps


class App:
    def __init__(self, **attributes):
        self.__dict__.update(attributes)


class Node:
    def __init__(self, *children):
        self.children = list(children)


class Entry:
    def __init__(self, value=None):
        self.value = value


class Listener:
    def on_event(self):
        pass


class Cache:
    def __init__(self, limit):
        self.limit = limit
        self.entries = {}

    def put(self, key, evict):
        if evict and len(self.entries) >= self.limit:
            del self.entries[next(iter(self.entries))]
        self.entries[key] = Entry(key)


class Config:
    pass


class Slotted:
    """Without __weakref__ and without __dict__."""

    __slots__ = ("next", "note")

    def __init__(self, next=None):
        self.next = next


def at_address(make, address, made):
    """An object at an address that was just freed, where one comes to lie there. The list keeps what came before it."""
    for _ in range(2000):
        made.append(make())
        if id(made[-1]) == address:
            break
    return made[-1]


def report_of(leaky):
    """The named report of a violation, or None where there is none."""
    try:
        leaky()
    except HeapViolation as violation:
        return violation.named
    return None


@needs_program
class Leaks(InFolder):
    def audited(self, **roots):
        return audited(roots, self.path("trace.jsonl"), PROGRAM)

    def test_service_keeps_ended_sessions(self):
        def day(keeps):
            server = service.Service(keeps)
            with self.audited(service=server) as recorder:
                server.ended = recorder.assert_dead
                service.serve_a_day(server)
                server.ended = None

        report = report_of(lambda: day(True))
        self.assertRegex(
            report,
            r"gc 1 dead \d+ tests\.programs\.service\.Session: root service -> \d+ tests\.programs\.service\.Service"
            r" \.bus -> \d+ tests\.programs\.service\.EventBus \.listeners -> \d+ list \[0\] -> \d+ method \S+ \.__self__ -> ",
        )
        self.assertIn("violations 1", report)
        self.assertIsNone(report_of(lambda: day(False)))

    def test_cache_outgrows_its_limit(self):
        def fill(evict):
            cache = Cache(10)
            with self.audited(cache=cache) as recorder:
                recorder.assert_instances(Entry, cache.limit)
                for key in range(30):
                    cache.put("key%d" % key, evict)

        report = report_of(lambda: fill(False))
        self.assertRegex(
            report,
            r"instances tests\.test_python\.Entry limit 10 found 30: root cache -> 1 \S+ \.entries -> \d+ dict \['key10'\] -> ",
        )
        self.assertIsNone(report_of(lambda: fill(True)))

    def test_doubled_singleton(self):
        def start(doubled):
            app = App(config=Config(), plugins={})
            app.plugins["mail"] = App(config=Config() if doubled else app.config)
            with self.audited(app=app) as recorder:
                recorder.assert_instances(Config, 1)

        report = report_of(lambda: start(True))
        self.assertRegex(
            report,
            r"Config limit 1 found 2: root app -> \d+ \S+App \.plugins -> \d+ dict \['mail'\] -> .* \.config -> ",
        )
        self.assertIsNone(report_of(lambda: start(False)))

    def test_element_kept_past_its_container(self):
        def run(kept):
            class Box:
                pass

            app, box, item = App(), Box(), Entry()
            app.box, app.recent, box.item = box, [], item
            with self.audited(app=app) as recorder:
                recorder.assert_owned_by(box, item)
                recorder.collect()
                if kept:
                    app.recent.append(item)
                del app.box, box, item

        report = report_of(lambda: run(True))
        self.assertRegex(
            report, r"gc 2 ownedby \d+ \S+Entry owner \d+: root app -> 1 \S+App \.recent -> \d+ list \[0\] -> "
        )
        self.assertIsNone(report_of(lambda: run(False)))

    def test_each_case_of_an_owner(self):
        """The table of gcaudit_recorder/README.md: by whom the element is held, and whether that is a violation."""
        for by_box, by_recent, box_lives, violated in (
            (True, False, True, False),
            (True, True, True, False),
            (False, True, True, True),
            (False, True, False, True),
            (False, False, True, False),
        ):
            app, item = App(box=App(), recent=[]), Entry()
            app.box.item = item

            def run():
                with self.audited(app=app) as recorder:
                    recorder.assert_owned_by(app.box, item)
                    if by_recent:
                        app.recent.append(item)
                    if not by_box:
                        del app.box.item
                    if not box_lives:
                        del app.box

            report = report_of(run)
            self.assertEqual(report is not None, violated, (by_box, by_recent, box_lives))
            if violated:
                self.assertRegex(report, r"ownedby \d+ \S+Entry owner \d+( gone)?: root app -> 1 \S+App \.recent -> ")

    def test_element_held_beside_its_container(self):
        class Box:
            pass

        app, box, item = App(), Box(), Entry()
        app.box, app.recent, box.item = box, [item], item
        with self.audited(app=app) as recorder:  # reached by the owner too: no violation
            recorder.assert_owned_by(box, item)
        del box.item
        with self.assertRaises(HeapViolation):
            with self.audited(app=app) as recorder:
                recorder.assert_owned_by(box, item)

    def test_owner_that_died_before_the_first_collection(self):
        app, item = App(), Entry()
        app.item, box = item, Entry(item)
        with self.assertRaisesRegex(HeapViolation, r"ownedby \d+ \S+Entry owner \d+"):
            with self.audited(app=app) as recorder:
                recorder.assert_owned_by(box, item)
                del box

    def test_shared_nodes_of_a_tree(self):
        def grow(shared):
            leaf = Node()
            tree = Node(Node(leaf), Node(leaf if shared else Node()))
            with self.audited(tree=tree) as recorder:
                recorder.assert_unshared(leaf)

        report = report_of(lambda: grow(True))
        self.assertRegex(
            report,
            r"unshared \d+ \S+Node refs 2: root tree -> .* \[0\] -> \d+ \S+Node \.children -> \d+ list \[0\] -> \d+ \S+Node \| root tree",
        )
        self.assertIsNone(report_of(lambda: grow(False)))

    def test_region(self):
        def serve(leaks):
            log = []
            with audited({"app": App(log=log)}, self.path("trace.jsonl"), PROGRAM, may_be_empty=True):
                pass
            app = App(log=log, old={"n": 1})
            with self.audited(app=app) as recorder:
                with recorder.region():
                    request = {"user": "ada", "body": bytearray(10)}
                    app.old["now tracked"] = app  # an old dict that begins to hold an object is not new
                    if leaks:
                        log.append(request)
                    del request

        report = report_of(lambda: serve(True))
        self.assertRegex(report, r"dead \d+ dict: root app -> \d+ \S+App \.log -> \d+ list \[0\] -> ")
        self.assertIn("violations 2", report)
        self.assertIsNone(report_of(lambda: serve(False)))

    def test_region_with_a_dict_of_plain_values(self):
        app = App(log=[])
        with self.assertRaisesRegex(HeapViolation, r"\.log -> \d+ list \[0\] -> \d+ dict"):
            with self.audited(app=app) as recorder:
                with recorder.region():
                    app.log.append({"n": 1})

    def test_regions_within_each_other(self):
        app = App(log=[])
        with self.assertRaisesRegex(HeapViolation, "violations 2"):
            with self.audited(app=app) as recorder:
                with recorder.region():
                    app.log.append(Entry())
                    with recorder.region():
                        app.log.append(Entry())
                        recorder.collect()

    def test_weak_slots_keep_nothing_alive(self):
        item = Entry()
        app = App(ref=weakref.ref(item), proxy=weakref.proxy(item), cache=weakref.WeakValueDictionary(a=item))
        with self.audited(app=app) as recorder:
            recorder.assert_dead(item)
            del item
            recorder.collect()
        self.assertEqual([e["weak"] for e in events(self.path("trace.jsonl")) if e["op"] == "set-weak"][:1], [True])

    def test_dead_again_after_it_was_unreached(self):
        app, item = App(items=[]), Entry()
        with self.assertRaisesRegex(HeapViolation, "gc 2 dead"):
            with self.audited(app=app) as recorder:
                recorder.assert_dead(item)
                recorder.collect()
                app.items.append(item)

    def test_paths_through_functions_and_generators(self):
        def generate(held):
            yield
            return held

        item, other = Entry(), Entry()
        waiting = generate(other)
        next(waiting)
        app = App(callback=lambda: item, waiting=waiting)
        with self.assertRaises(HeapViolation) as caught:
            with self.audited(app=app) as recorder:
                recorder.assert_dead(item)
                recorder.assert_dead(other)
        self.assertRegex(
            caught.exception.named, r"\.callback -> \d+ function \S+ \(variable item\) -> \d+ cell \.cell_contents -> "
        )
        self.assertRegex(caught.exception.named, r"\.waiting -> \d+ generator tests\.\S+ \(local\) -> ")

    def test_a_class_and_a_module_as_roots(self):
        class Registry:
            entries = [Entry()]

        module = types.ModuleType("settings")
        module.entry = Entry()
        with self.assertRaises(HeapViolation) as caught:
            with self.audited(registry=Registry, settings=module) as recorder:
                recorder.assert_dead(Registry.entries[0])
                recorder.assert_dead(module.entry)
        self.assertRegex(
            caught.exception.named, r"root registry -> \d+ class \S+Registry \.entries -> \d+ list \[0\] -> "
        )
        self.assertRegex(caught.exception.named, r"root settings -> \d+ module settings \.entry -> ")


class Traces(InFolder):
    """What a trace says, and that gcaudit refuses no line of it."""

    def setUp(self):
        super().setUp()
        self.trace = self.path("trace.jsonl")

    def recorder(self, **roots):
        return Recorder(self.trace, roots, may_be_empty=True, audit_later=True)

    def clean(self, recorder):
        recorder.close()
        if PROGRAM:
            return Recorder.check(recorder, PROGRAM)

    def ids_of(self, type_end):
        return [e["id"] for e in events(self.trace) if e["op"] == "alloc" and e["type"].endswith(type_end)]

    def test_long_names_and_control_characters(self):
        long = [type("C" * 300 + end, (), {})() for end in "ab"]
        odd = type("bad\x01\x7f\nname", (), {})()
        holder = Entry({"k" * 300: long, "\x00\x1b[31m\ud800": odd, "é" * 300: Entry()})
        recorder = self.recorder(**{"r" * 300: holder, "r" * 299 + "\n": long[0], "": odd})
        setattr(holder, "x" * 300, Entry())
        setattr(holder, "y\n\x00", Entry())
        recorder.assert_instances(type(long[0]), 1)
        self.clean(recorder)
        names = [e["type"] for e in events(self.trace) if e["op"] == "alloc"]
        self.assertEqual(len([n for n in set(names) if "CCCC" in n]), 2)
        for name in names + [e["name"] for e in events(self.trace) if e["op"] == "root"]:
            self.assertTrue(1 <= len(name.encode()) <= 256 and name.isprintable(), name)
        self.assertEqual(len([e for e in events(self.trace) if e["op"] == "root"]), 3)

    def test_100000_objects(self):
        first = None
        for _ in range(50000):
            first = Slotted(first)
        chain = Entry([first, [Entry() for _ in range(50000)]])
        recorder = self.recorder(chain=chain)
        recorder.collect()
        chain.value[1].append(Entry())
        recorder.collect()
        report = self.clean(recorder)
        if report:
            self.assertRegex(report, r"gc 1 live 10000\d traced 10000\d freed 0\n")

    def test_cycles(self):
        one, two = Entry(), Slotted()
        one.value, two.next, two.note = two, one, two
        recorder = self.recorder(one=one)
        recorder.collect()
        self.clean(recorder)
        self.assertEqual(len([e for e in events(self.trace) if e["op"] == "alloc"]), 2)

    def test_ids_stay_while_objects_live(self):
        items = [Entry() for _ in range(5)]
        pinned = Slotted()
        app = App(items=items, slotted=Slotted(items[0]), pinned=pinned)
        recorder = self.recorder(app=app)
        recorder.assert_unshared(pinned)
        for _ in range(3):
            recorder.collect()
        self.clean(recorder)
        self.assertEqual(len(self.ids_of("Entry")), 5)
        self.assertEqual(len(self.ids_of("Slotted")), 2)
        self.assertEqual(len(self.ids_of("list")), 1)

    def test_addresses_used_again(self):
        # What holds an object that has weak references is told apart by it. Where nothing can tell, an old id comes back.
        again = 0
        for make, ids_at_least in (
            (Entry, 12),
            (lambda: Slotted(Entry()), 12),
            (lambda: [Entry()], 12),
            (lambda: [1], 1),
            (dict, 1),
        ):
            recorder = self.recorder()
            app = App()
            recorder.root("app", app)
            for _ in range(6):
                app.item = make()
                address = id(app.item)
                recorder.collect()
                made = []
                app.item = None
                app.item = at_address(make, address, made)
                again += id(app.item) == address
                recorder.collect()
                app.item = None
            self.clean(recorder)
            ids = [e["to"] for e in events(self.trace) if e["op"] == "store" and e.get("label") == ".item" and e["to"]]
            self.assertGreaterEqual(len(set(ids)), ids_at_least)
        if sys.implementation.name == "cpython":
            self.assertGreater(again, 0)

    def test_address_used_again_under_an_assertion(self):
        app = App(item=Slotted())
        recorder = self.recorder(app=app)
        for _ in range(10):
            recorder.assert_dead(app.item)
            app.item = None
            recorder.collect()
            app.item = Slotted()
        self.clean(recorder)  # the new ones are not dead

    def test_a_dict_as_root_is_replaced(self):
        recorder = self.recorder()
        for _ in range(10):
            recorder.root("table", {"a": Entry()})
            recorder.collect()
        self.clean(recorder)
        self.assertEqual(len(set(self.ids_of("dict"))), 10)

    def test_contents_that_grow_and_shrink(self):
        app = App(items=[])
        recorder = self.recorder(app=app)
        for count in (0, 1, 2, 3, 4, 5, 9, 40, 200, 3, 1000, 0, 50):
            app.items[:] = [weakref.ref(app) if n % 3 else Entry() for n in range(count)]
            recorder.collect()
        recorder.assert_dead(app.items[0])
        recorder.close()
        if PROGRAM:
            with self.assertRaisesRegex(HeapViolation, r"\.items -> \d+ list \[0\] -> "):
                recorder.check(PROGRAM)

    @needs_program
    def test_path_through_further_slots(self):
        app = App(items=[])
        recorder = self.recorder(app=app)
        recorder.collect()
        app.items += [Entry() for _ in range(100)]
        recorder.assert_dead(app.items[99])
        with self.assertRaisesRegex(HeapViolation, r"\.items -> \d+ list \[99\] -> \d+ \S+Entry\n"):
            recorder.check(PROGRAM)

    def test_keeps_nothing_alive(self):
        app = App(items=[Entry(), Slotted(Entry())])
        recorder = self.recorder(app=app)
        watched = [weakref.ref(app.items[0]), weakref.ref(app.items[1].next), weakref.ref(app)]
        recorder.assert_unshared(app.items[0])
        with recorder.region():
            app.items.append([Entry()])
            inner = weakref.ref(app.items[2][0])
            recorder.collect()
            app.items.clear()
            self.assertEqual([w() for w in watched[:2]], [None, None])
        del app
        gc.collect()
        self.assertEqual([w() for w in watched] + [inner()], [None] * 4)
        self.clean(recorder)

    def test_holds_what_has_no_weak_references_until_it_is_not_found(self):
        inner = Entry()
        app = App(item=Slotted(inner))
        recorder = self.recorder(app=app)
        recorder.assert_unshared(app.item)
        recorder.collect()
        app.item, inner = None, weakref.ref(inner)
        self.assertIsNotNone(inner())
        recorder.collect()
        self.assertIsNone(inner())
        self.clean(recorder)

    def test_nothing_of_the_program_runs(self):
        class Touchy:
            def __getattribute__(self, name):
                raise AssertionError("touched")

            __eq__ = __hash__ = __repr__ = __bool__ = __len__ = __iter__ = lambda self, *other: 1 / 0

        class Table(dict):
            __getitem__ = __iter__ = items = keys = values = lambda self, *other: 1 / 0

        touchy = Touchy()
        app = App(table=Table(a=touchy), items=[touchy])
        recorder = self.recorder(app=app)
        recorder.collect()
        self.clean(recorder)
        self.assertEqual(len(self.ids_of("Touchy")), 1)

    def test_slots_and_attributes_of_one_object(self):
        class Base:
            __slots__ = ("slot",)

        class Derived(Base):
            pass

        class Further(Derived):
            def __init__(self):
                self.slot, self.attribute = Entry(), Entry()

        app = App(further=Further())
        recorder = self.recorder(app=app)
        recorder.collect()
        self.clean(recorder)
        self.assertEqual(
            sorted(e["label"] for e in events(self.trace) if e["op"] == "store"), [".attribute", ".further", ".slot"]
        )

    def test_other_containers(self):
        import collections, functools, threading, itertools

        entry = Entry()
        values = [
            collections.deque([entry]),
            collections.OrderedDict(a=entry),
            collections.defaultdict(list, a=[entry]),
            {entry},
            frozenset([entry]),
            functools.partial(print, entry),
            itertools.chain([entry]),
            threading.Lock(),
            ValueError(entry),
            memoryview(bytearray(5)),
            collections.ChainMap({"a": entry}),
            {(1, "a"): entry, entry: 1},
            collections.namedtuple("Pair", "a b")(entry, 1),
            property(lambda self: entry),
            object(),
            [].append,
        ]
        app = App(values=values)
        recorder = self.recorder(app=app)
        recorder.collect()
        self.clean(recorder)
        number = self.ids_of("test_python.Entry")[0]
        self.assertGreaterEqual(len([e for e in events(self.trace) if e["op"] == "store" and e["to"] == number]), 13)

    def test_no_partial_file(self):
        with contextlib.suppress(ZeroDivisionError):
            with self.recorder() as recorder:
                recorder.collect()
                1 / 0
        self.assertEqual(os.listdir(self.folder), [])

    def test_a_file_that_was_there_stays_where_the_block_raises(self):
        with open(self.trace, "w") as file:
            file.write("old")
        with contextlib.suppress(ZeroDivisionError):
            with self.recorder():
                1 / 0
        with open(self.trace) as file:
            self.assertEqual(file.read(), "old")

    def test_no_partial_file_of_a_recorder_that_nobody_closes(self):
        recorder = self.recorder(entry=Entry())
        recorder.collect()
        self.assertEqual(len(os.listdir(self.folder)), 1)
        del recorder
        gc.collect()
        self.assertEqual(os.listdir(self.folder), [])
        program = (
            "from gcaudit_recorder import Recorder\nrecorder = Recorder(%r, {'a': []})\nrecorder.collect()\n"
            % self.trace
        )
        subprocess.run([sys.executable, "-B", "-c", program], env=dict(os.environ, PYTHONPATH=RECORDERS), check=True)
        self.assertEqual(os.listdir(self.folder), [])

    @needs_program
    def test_nothing_asserted_or_no_root_is_no_pass(self):
        held = [Entry()]
        for roots, asserted, why in (
            ({"held": held}, None, "nothing was asserted"),
            ({}, [Entry()], "no root was there"),
            ({"gone": Entry()}, [Entry()], "no root was there"),
        ):
            for may_be_empty in (False, True):
                recorder = Recorder(self.trace, roots, may_be_empty=may_be_empty)
                roots = {name: held for name in roots}
                if asserted:
                    recorder.assert_unshared(asserted)
                if may_be_empty or roots and asserted:
                    continue
                with self.assertRaisesRegex(TraceError, why):
                    recorder.check(PROGRAM)

    def test_an_unchanged_heap_frees_nothing(self):
        app = App(empty={}, numbers=[1, 2], nested=[[], {}, ({"a": 1}, [2])], table={"a": {"b": {}}}, entry=Entry([{}]))
        recorder = self.recorder(app=app)
        recorder.assert_instances(Config, 1)
        for _ in range(3):
            recorder.collect()
        recorder.close()
        self.assertEqual(
            {e["op"] for e in events(self.trace)[events(self.trace).index({"op": "collect"}) :]}, {"collect"}
        )
        if PROGRAM:
            self.assertIn("gc 3 live 15 traced 15 freed 0\n", recorder.check(PROGRAM))

    @needs_program
    def test_a_path_to_each_instance(self):
        app = App(first=Entry(), others=[Entry(), Entry()])
        recorder = self.recorder(app=app)
        recorder.assert_instances(Entry, 1)
        with self.assertRaises(HeapViolation) as caught:
            recorder.check(PROGRAM, all_instances=True)
        for place, path in enumerate((r"\.first", r"\.others -> \d+ list \[0\]", r"\.others -> \d+ list \[1\]"), 1):
            self.assertRegex(
                str(caught.exception),
                r"gc 1 instance %d of 3 \S+Entry: root app -> 1 \S+App %s -> \d+ \S+Entry\n" % (place, path),
            )

    def test_too_many_objects_say_of_which_types(self):
        from gcaudit_recorder import walk

        self.addCleanup(setattr, walk, "MOST_OBJECTS", walk.MOST_OBJECTS)
        walk.MOST_OBJECTS = 100
        app = App(entries=[Entry() for _ in range(200)])
        recorder = self.recorder(app=app)
        with self.assertRaisesRegex(TraceError, r"more than 100 objects.*Most are of: \S+Entry 98, list 1, \S+App 1"):
            recorder.collect()
        recorder.abandon()

    def test_a_recorder_that_is_left_without_a_check_says_so(self):
        def said(end, **words):
            recorder = Recorder(self.trace, {"app": app}, **words)
            recorder.assert_dead(app)
            with warnings.catch_warnings(record=True) as found:
                warnings.simplefilter("always")
                end(recorder)
                del recorder
            return [
                (one.category, os.path.basename(one.filename)) for one in found if one.category is not ResourceWarning
            ]

        app = App()
        self.assertEqual(said(Recorder.close), [(UncheckedWarning, "test_python.py")])
        self.assertEqual(said(lambda recorder: None), [(UncheckedWarning, "test_python.py")])
        self.assertEqual(said(Recorder.close, audit_later=True), [])
        self.assertEqual(said(Recorder.abandon), [])
        self.assertEqual(said(lambda recorder: self.assertRaises(HeapViolation, recorder.check, PROGRAM)), [])

    def test_growth_of_what_warms_up(self):
        """A buffer of the last lines doesn't grow when it is full, though its texts are a little longer then; what fills goes on before."""

        class Service:
            def __init__(self):
                self.lines, self.kept, self.requests = deque(maxlen=5), [], 0

            def visit(self):
                self.requests += 1
                self.lines.append("a visitor was here, in request %d" % self.requests)

            def leak(self):
                self.visit()
                self.kept.append("a visitor was here, in request %d" % self.requests)

        def grown(rounds, kind, **how):
            service = Service()
            service.requests = 90
            recorder = self.recorder(service=service)
            growth = str(recorder.growth(rounds, getattr(service, kind), **how))
            recorder.abandon()
            return growth

        self.assertEqual(grown(10, "visit"), "nothing grew")
        self.assertEqual(grown(2, "visit", warm_up=9), "nothing grew")  # from 99 to 101
        self.assertIn("+1 str a round", grown(2, "visit"))
        self.assertRegex(
            grown(10, "leak"), r"^\+1 str a round, [\d.,]+ bytes, held by \S+Service\.kept \(1 -> 2 -> .* -> 11\)"
        )

    def test_a_deque_has_its_bytes_by_its_length(self):
        """While one end is filled and the other emptied it has a block more now and then, and that is no growth."""
        lines, found = deque(maxlen=5), set()
        for at in range(200):
            lines.append(at)
            found.add(size_of(lines, shape_of(lines)))
        self.assertEqual(len(found), 1)
        many = deque(range(200))
        self.assertEqual(size_of(many, shape_of(many)), sys.getsizeof(many))

    def test_growth_counts_texts_numbers_and_buffers(self):
        """By what holds them; a value that several hold counts once. Sizes are those that Python tells."""

        class Cache:
            def __init__(self):
                self.entries, self.numbers, self.buffer, self.text = {}, [], bytearray(), ""

        cache, rounds = Cache(), iter(range(100))

        def work():
            number = next(rounds)
            for at in range(10):
                text = "%d-%d-%s" % (number, at, "x" * 1000)
                cache.entries[text] = text  # one text, though it is a key too
            cache.numbers += [number + at + 0.5 for at in range(100)]
            cache.buffer += bytes(5000)
            cache.text += "y" * 700

        recorder = self.recorder(cache=cache)
        growth = recorder.growth(2, work)
        walk = recorder._walk_from_roots(with_values=True)
        recorder.abandon()
        size, name = sys.getsizeof("0-0-" + "x" * 1000), type_name(Cache)
        lines = str(growth).split("\n")
        self.assertIn("+10 str a round, {:,} bytes, held by {}.entries (10 -> 20 -> 30)".format(10 * size, name), lines)
        self.assertIn(
            "+100 float a round, {:,} bytes, held by {}.numbers (100 -> 200 -> 300)".format(
                100 * sys.getsizeof(0.5), name
            ),
            lines,
        )
        counts = {(kind, holder.name): (count, size) for (kind, holder), (count, size) in walk.counts().items()}
        self.assertEqual(counts["str", name + ".text"], (1, sys.getsizeof("y" * 2100)))
        self.assertGreaterEqual(counts["bytearray", name + ".buffer"][1], 15000)

    def test_sizes_that_change_stand_in_the_trace(self):
        """So growth from collection to collection is seen in a trace too; what doesn't change is written once."""
        app = App(buffer=bytearray(1000), texts={}, same=[1])
        recorder = self.recorder(app=app)
        sizes = []
        for number in range(3):
            recorder.collect()
            sizes.append((sys.getsizeof(app.buffer), sys.getsizeof(app.texts)))
            app.buffer += bytes(5000)
            app.texts[number] = "%d" % number * 1000
        recorder.close()
        graphs = [heap.graph() for heap in heaps(self.trace)]
        found = [{graph.type_of(node): size for node, size in enumerate(graph.sizes)} for graph in graphs]
        self.assertEqual([one["bytearray"] for one in found], [size for size, _ in sizes])
        texts = [sum(sys.getsizeof("%d" % one * 1000) for one in range(number)) for number in range(3)]
        self.assertEqual([one["dict"] for one in found], [size + more for (_, size), more in zip(sizes, texts)])
        told = [event["at"] for event in events(self.trace) if "bytes" in event and event["op"] != "alloc"]
        self.assertEqual(len(told), 4)
        if PROGRAM:
            self.assertEqual(audit(self.trace, PROGRAM).status, 0)

    def test_functions_and_the_like_have_their_names(self):
        async def poll():
            await asyncio.sleep(1000)

        def walk():
            yield

        async def stream():
            yield

        def listen():
            pass

        app = App(
            function=listen,
            method=Listener().on_event,
            builtin=[].append,
            generator=walk(),
            coroutine=poll(),
            stream=stream(),
        )
        recorder = self.recorder(app=app)
        recorder.assert_instances(types.FunctionType, 0, reached_only=True)
        try:
            report = recorder.check(PROGRAM)
        except HeapViolation as violation:
            report = violation.report
        app.coroutine.close()
        here = "tests.test_python"
        place = "Traces.test_functions_and_the_like_have_their_names.<locals>"
        found = {event["type"] for event in events(self.trace) if event["op"] == "alloc"}
        for name in (
            "async_generator %s.%s.stream" % (here, place),
            "coroutine %s.%s.poll" % (here, place),
            "function %s.%s.listen" % (here, place),
            "generator %s.%s.walk" % (here, place),
            "method Listener.on_event",
        ):
            self.assertIn(name, found)
        self.assertNotIn("function", found)
        self.assertRegex(report, r"instances function\+ limit 0 found [1-9]\d*: ")

    def test_open_file(self):
        text = io.StringIO()
        entry = Entry()
        with Recorder(text, {"a": entry}):
            pass
        self.assertEqual(text.getvalue().count("\n"), 3)

    def test_what_is_refused(self):
        recorder = self.recorder()
        for wrong in (
            lambda: recorder.assert_dead("text"),
            lambda: recorder.assert_dead(Entry),
            lambda: recorder.root("r", 5),
            lambda: recorder.assert_instances("Entry", 1),
            lambda: recorder.assert_instances(Entry, -1),
            lambda: recorder.assert_instances(str, 1),
            lambda: recorder.assert_dead(recorder),
        ):
            self.assertRaises(TraceError, wrong)
        entry = Entry()
        for wrong in (
            lambda: recorder.assert_owned_by(entry, entry),
            lambda: recorder.assert_dead(None),
            lambda: recorder.root(5, entry),
            lambda: recorder.assert_instances(Entry, True),
            lambda: recorder.assert_instances(Entry, "1"),
            lambda: recorder.assert_owned_by(5, entry),
            lambda: Recorder(5),
            lambda: Recorder(None),
            lambda: Recorder(self.path("a"), [entry]),
            lambda: Recorder(self.path("a"), "every"),
            lambda: Recorder(self.path("a"), {"a": 5}),
            lambda: Recorder("a\0b"),
            lambda: recorder.growth(0, list),
            lambda: recorder.growth(2, 5),
            lambda: recorder.growth(2, list, warm_up=0),
            lambda: recorder.region("Entry").__enter__(),
            lambda: recorder.region(5).__enter__(),
            lambda: recorder.region([5]).__enter__(),
            lambda: Recorder(""),
        ):
            self.assertRaises(TraceError, wrong)
        self.assertEqual([name for name in os.listdir(self.folder) if "trace.jsonl" not in name], [])
        recorder.close()
        self.assertRaises(TraceError, recorder.collect)
        self.assertRaises(TraceError, lambda: recorder.check("/no/such/gcaudit"))
        self.assertRaises(TraceError, lambda: Recorder(self.path("no/such/folder")))


@needs_program
class Naming(InFolder):
    """The names in a report, of traces that no recorder wrote."""

    def test_what_gcaudit_reads_is_named(self):
        held = '{"op":"store","at":1,"slot":0,"to":2,%s}\n'
        deep = '"other":' + "[" * 60 + "]" * 60
        for line, step in (
            (held % '"label":".x"', " .x -> "),
            ("\n \t\n" + held % '"label":".x"', " .x -> "),
            (held % '"label":".x"\r', " .x -> "),
            (held % '"label":5', " [slot 0] -> "),
            (held % '"label":null', " [slot 0] -> "),
            (held % '"other":1', " [slot 0] -> "),
            (held % deep, " [slot 0] -> "),
        ):
            with open(self.path("trace.jsonl"), "w", newline="\n") as file:
                file.write(
                    '{"op":"alloc","id":1,"type":"A","slots":1}\n{"op":"alloc","id":2,"type":"B","slots":0}\n'
                    + line
                    + '{"op":"root","name":"r","to":1}\n{"op":"assert-dead","id":2}\n{"op":"collect"}\n'
                )
            self.assertIn("gc 1 dead 2 B: root r -> 1 A%s2 B\n" % step, audit(self.path("trace.jsonl"), PROGRAM).named)


# The test of the page gcaudit_recorder/README.md, with what it tests.
LOGOUT = """
class EventBus:
    def __init__(self):
        self.listeners = []

class Session:
    def on_event(self, event):
        pass

def login(bus):
    session = Session()
    bus.listeners.append(session.on_event)
    return session

def logout(session, bus):
    if %r:
        bus.listeners.remove(session.on_event)

def test_logout(heap):
    bus = EventBus()
    heap.root("bus", bus)
    session = login(bus)
    logout(session, bus)
    heap.assert_dead(session)
"""
PYTEST = python_with("pytest")


@needs_program
@unittest.skipIf(PYTEST is None, "pytest is not there")
class Plugin(InFolder):
    def run_pytest(self, text, program=PROGRAM, more=()):
        """The status of pytest over a file of tests, and what it says."""
        with open(self.path("test_it.py"), "w") as file:
            file.write(text)
        words = [
            PYTEST,
            "-B",
            "-m",
            "pytest",
            "-p",
            "no:cacheprovider",
            "-p",
            "gcaudit_recorder.pytest_plugin",
            "--gcaudit",
            program,
            "--basetemp",
            self.path("temporary"),
            "test_it.py",
            *more,
        ]
        done = subprocess.run(
            words,
            cwd=self.folder,
            stdout=subprocess.PIPE,
            stderr=subprocess.STDOUT,
            env=dict(os.environ, PYTHONPATH=RECORDERS),
        )
        return done.returncode, done.stdout.decode()

    def test_leak(self):
        status, said = self.run_pytest(LOGOUT % False)
        self.assertEqual(status, 1, said)
        self.assertRegex(
            said,
            r"gc 1 dead \d+ test_it\.Session: root bus -> 1 test_it\.EventBus \.listeners -> \d+ list \[0\] -> "
            r"\d+ method Session\.on_event \.__self__ -> \d+ test_it\.Session\n",
        )
        self.assertIn("1 failed in ", said)

    def test_the_twin_passes(self):
        status, said = self.run_pytest(LOGOUT % True)
        self.assertEqual(status, 0, said)
        self.assertIn("1 passed in ", said)

    def test_a_root_that_was_taken_away(self):
        status, said = self.run_pytest(
            LOGOUT % False + "    heap.root('bus', None)\n    heap.may_be_empty = True\n    del bus, session\n"
        )
        self.assertEqual(status, 0, said)

    def test_a_test_that_fails_itself(self):
        status, said = self.run_pytest(LOGOUT % False + "    assert session is None\n")
        self.assertEqual(status, 1, said)
        self.assertIn("assert session is None", said)
        self.assertNotIn("gcaudit found a violation", said)

    def test_xfail_takes_a_violation(self):
        mark = "import pytest\n" + (LOGOUT % False).replace(
            "def test_logout", "@pytest.mark.xfail(raises=AssertionError, strict=True)\ndef test_logout"
        )
        status, said = self.run_pytest(mark)
        self.assertEqual(status, 0, said)
        self.assertIn("1 xfailed in ", said)

    def test_the_fixture_in_a_unittest_and_by_its_name(self):
        """However a test gets the fixture, a leak fails it and its mended twin passes."""
        ways = {
            "unittest": """
import pytest
import unittest

class TestShop(unittest.TestCase):
    @pytest.fixture(autouse=True)
    def take_heap(self, heap):
        self.heap = heap

    def test_it(self):
        test_logout(self.heap)
""",
            "getfixturevalue": """
def test_it(request):
    test_logout(request.getfixturevalue("heap"))
""",
        }
        for way, text in ways.items():
            for is_mended in (False, True):
                with self.subTest(way=way, is_mended=is_mended):
                    status, said = self.run_pytest(
                        (LOGOUT % is_mended).replace("test_logout", "logout_test")
                        + text.replace("test_logout", "logout_test")
                    )
                    self.assertEqual(status, 0 if is_mended else 1, said)
                    self.assertIn("1 passed in " if is_mended else "1 failed in ", said)
                    if not is_mended:
                        self.assertRegex(
                            said, r"gc 1 dead \d+ test_it\.Session: root bus -> 1 test_it\.EventBus \.listeners"
                        )

    def test_a_unittest_that_fails_itself(self):
        text = "import pytest, unittest\nclass TestIt(unittest.TestCase):\n    @pytest.fixture(autouse=True)\n    def take(self, heap):\n        pass\n"
        status, said = self.run_pytest(text + "    def test_it(self):\n        self.assertEqual(1, 2)\n")
        self.assertEqual(status, 1, said)
        self.assertNotIn("nothing was asserted", said)

    def test_a_recorder_without_a_check_is_a_warning(self):
        """One that a test or a fixture makes and forgets. As an error where that is asked."""
        made = "    with Recorder(str(tmp_path / 'a.jsonl'), {'bus': bus}) as recorder:\n        recorder.assert_dead(bus)\n"
        head = "import pytest\nfrom gcaudit_recorder import Recorder\nbus = [[]]\n"
        by_test = head + "def test_it(tmp_path):\n" + made
        by_fixture = (
            head
            + "@pytest.fixture\ndef recorder(tmp_path):\n"
            + made
            + "        yield recorder\n\ndef test_it(recorder):\n    pass\n"
        )
        for text, line in ((by_test, 5), (by_fixture, 6)):
            status, said = self.run_pytest(text)
            self.assertEqual(status, 0, said)
            self.assertRegex(
                said,
                r"test_it\.py:%d: UncheckedWarning: a recorder asserted something, and gcaudit never checked it" % line,
            )
            self.assertIn("1 passed, 1 warning in ", said)
            status, said = self.run_pytest(text, more=["-W", "error::gcaudit_recorder.UncheckedWarning"])
            self.assertEqual(status, 1, said)
            self.assertIn("UncheckedWarning: a recorder asserted something", said)
        status, said = self.run_pytest(by_test + "    recorder.abandon()\n")
        self.assertIn("1 passed in ", said)

    def test_a_test_that_asserts_nothing_or_names_no_root_fails(self):
        for text, why in (
            ("def test_it(heap):\n    heap.root('a', [1])\n", "nothing was asserted"),
            ("def test_it(heap):\n    heap.assert_dead([[]])\n", "no root was there"),
            ("def test_it(heap):\n    pass\n", "nothing was asserted"),
        ):
            status, said = self.run_pytest(text)
            self.assertEqual(status, 1, said)
            self.assertIn(why, said)
            status, said = self.run_pytest(text + "    heap.may_be_empty = True\n")
            self.assertEqual(status, 0, said)

    def test_it_is_registered_once_however_it_is_named(self):
        with open(self.path("conftest.py"), "w") as file:
            file.write("pytest_plugins = ['gcaudit_recorder.pytest_plugin']\n")
        status, said = self.run_pytest(LOGOUT % True)
        self.assertEqual(status, 0, said)

    def test_without_gcaudit_nothing_passes(self):
        status, said = self.run_pytest(LOGOUT % True, "/no/such/gcaudit")
        self.assertEqual(status, 1, said)
        self.assertIn("there is no program /no/such/gcaudit", said)


if __name__ == "__main__":
    unittest.main()

"""A shop on Flask in which six things of a request may outlive it: python3 flask_shop.py growth|assertions leak|clean FOLDER

It asks itself for its own pages, and prints what the recorder says.
"""
import logging
import queue
import sys
import threading
from collections import deque

from flask import Flask, g

from gcaudit_recorder import HeapViolation, Recorder


LAST = 4  # so many lines of the log, and so many errors, are kept


class Session:
    """Listens to the shop's events."""

    def __init__(self, name):
        self.name = name
        self.seen = []

    def on_event(self, event):
        self.seen.append(event)


class Page:
    """What a page shows; the cache has the last ones."""

    def __init__(self, number):
        self.number = number


class Order:
    """Is told to the visitor when the response was sent."""

    def __init__(self, number):
        self.number = number


class Basket:
    """A local variable of a function that raises."""

    def __init__(self):
        self.items = ["tea"]


class Job:
    """Work for the shop's other thread."""

    def __init__(self):
        self.done = threading.Event()


class Visitor:
    """Whom the log's lines are about."""

    def __str__(self):
        return "a visitor"


class Lines(logging.Handler):
    """Keeps lines of the log: the texts of the last ones, or all records with what they speak of."""

    def __init__(self, texts):
        super().__init__()
        self.texts, self.lines = texts, deque(maxlen=LAST if texts else None)

    def emit(self, record):
        self.lines.append(record.getMessage() if self.texts else record)


class Shop:
    """`made` is told of each object that must not outlive its visit by much."""

    def __init__(self, leaks, made):
        self.leaks = leaks
        self.made = made
        self.listeners = []
        self.pages = {}
        self.callbacks = []
        self.errors = deque(maxlen=None if leaks else LAST)
        self.jobs = queue.Queue()
        self.lines = Lines(texts=not leaks)
        self.log = logging.Logger("shop")
        self.log.addHandler(self.lines)
        self.requests = 0
        self.app = self.made_app()
        threading.Thread(target=self.work, name="worker", daemon=True).start()

    def work(self):
        """The other thread: what it did stays in a list of its own."""
        done = []
        while True:
            job = self.jobs.get()
            if self.leaks:
                done.append(job)
            said = job.done
            del job
            said.set()

    def made_app(self):
        app = Flask("shop")

        @app.before_request
        def begin():
            self.requests += 1

        @app.route("/session")
        def session():
            one = g.session = Session("ada")
            self.made(one)
            self.listeners.append(one.on_event)
            if not self.leaks:
                self.listeners.remove(one.on_event)
            return "hello"

        @app.route("/page")
        def page():
            one = self.pages[self.requests] = Page(self.requests)
            self.made(one)
            while len(self.pages) > 1 and not self.leaks:
                del self.pages[next(iter(self.pages))]
            return "a page"

        @app.route("/order")
        def order():
            one = Order(self.requests)
            self.made(one)
            self.callbacks.append(lambda: one.number)
            if not self.leaks:
                self.callbacks.pop()()
            return "thank you"

        @app.route("/pay")
        def pay():
            basket = Basket()
            self.made(basket)
            raise ValueError("no money for %s" % basket.items[0])

        @app.errorhandler(ValueError)
        def failed(error):
            self.errors.append(error if self.leaks else "%s, in request %d" % (error, self.requests))
            return "failed", 400

        @app.route("/mail")
        def mail():
            job = Job()
            self.made(job)
            self.jobs.put(job)
            job.done.wait(60)
            return "sent"

        @app.route("/visit")
        def visit():
            visitor = Visitor()
            self.made(visitor)
            self.log.warning("%s was here, in request %d", visitor, self.requests)
            return "seen"

        return app

    def visit(self):
        """One request for each page, as a visitor's."""
        for path in ("/session", "/page", "/order", "/pay", "/mail", "/visit"):
            response = self.app.test_client().get(path)
            assert response.status_code == (400 if path == "/pay" else 200), path
            response.close()


def main(way, leaks, folder):
    with Recorder(folder + "/shop.jsonl", "everything") as recorder:
        shop = Shop(leaks == "leak", recorder.assert_dead if way == "assertions" else lambda made: None)
        if way == "growth":
            print(recorder.growth(2, shop.visit, warm_up=LAST))
            return
        shop.visit()
        shop.made = lambda made: None
        shop.visit()  # what the shop has of the last visit is none of the first
        try:
            recorder.check()
            print("no violation")
        except HeapViolation as found:
            print(found.named)


if __name__ == "__main__":
    main(*sys.argv[1:])

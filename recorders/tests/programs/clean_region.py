"""A region over a program that leaks nothing, and one over the same with a leak: clean_region.py ROOTS TRACE.

What it says is the number of violations of each. The work is done once before, since Python keeps what it uses first.
"""
import asyncio
import contextvars
import decimal
import json
import logging
import re
import sqlite3
import struct
import sys
import tempfile
import threading
from concurrent.futures import ThreadPoolExecutor

from gcaudit_recorder import HeapViolation, Recorder


class Session:
    log = []


class Shop:
    def __init__(self):
        self.connection = sqlite3.connect(":memory:", check_same_thread=False)
        self.connection.execute("CREATE TABLE sessions (name)")


shop = Shop()
variable = contextvars.ContextVar("variable")


async def wait():
    await asyncio.sleep(0.001)
    return decimal.Decimal(1) / 3


def work(leaks):
    session = Session()
    if leaks:
        Session.log.append(session)
    token = variable.set(session)
    variable.reset(token)
    json.dumps({"name": [1, 2]})
    re.compile("abc+%d" % leaks).match("abc")
    struct.pack("<IH", 1, 2)
    logging.getLogger("shop.%s" % leaks).debug("%s", "login")
    shop.connection.execute("INSERT INTO sessions VALUES ('ada')")
    shop.connection.execute("SELECT * FROM sessions").fetchall()
    with ThreadPoolExecutor(2) as pool:
        list(pool.map(str, range(10)))
    with tempfile.TemporaryDirectory():
        pass
    timer = threading.Timer(0.001, print, ["", ""])
    timer.start()
    timer.join()
    asyncio.run(wait())


def violations(leaks):
    recorder = Recorder(sys.argv[2], sys.argv[1] if sys.argv[1] == "everything" else {"shop": shop})
    with recorder.region():
        work(leaks)
    try:
        recorder.check()
    except HeapViolation as violation:
        print(violation, file=sys.stderr)
        return len(re.findall(r" dead \d+ \S*Session: ", violation.named))
    return 0


work(False)
print(violations(False), violations(True))

#!/usr/bin/env python3
"""How long a service stands still while its heap is audited: the longest pause that a thread sees, with and without fork.

    bench/fork_pause.py [OBJECTS [THREADS]]

A thread ticks each millisecond, others work. Half of the objects are instances, half are lists.
"""
import os
import sys
import tempfile
import threading
import time

sys.path.insert(0, os.path.join(os.path.dirname(os.path.dirname(os.path.abspath(__file__))), "recorders"))
from gcaudit_recorder import Recorder  # noqa: E402


class Session:
    def __init__(self) -> None:
        self.listeners = []


class Ticks(threading.Thread):
    """Notes the longest time between two of its ticks."""

    def __init__(self) -> None:
        super().__init__(daemon=True)
        self.longest = 0.0
        self.start()

    def run(self) -> None:
        before = time.perf_counter()
        while True:
            time.sleep(0.001)
            now = time.perf_counter()
            self.longest = max(self.longest, now - before)
            before = now


def work() -> None:
    while True:
        for _ in range(100):
            {"request": [Session() for _ in range(10)]}
        time.sleep(0.001)


def main() -> None:
    count, threads = int((sys.argv[1:] or [1000000])[0]), int((sys.argv[2:] or [4])[0])
    sessions = [Session() for _ in range(count // 2)]
    ticks = Ticks()
    for _ in range(threads):
        threading.Thread(target=work, daemon=True).start()
    ticks.longest = 0.0
    time.sleep(1)
    print("%d objects, %d threads; without a walk the longest pause is %.0f ms" % (count, threads, 1000 * ticks.longest))
    for fork in (True, False):
        with tempfile.TemporaryDirectory() as folder:
            recorder = Recorder(os.path.join(folder, "trace.jsonl"), {"sessions": sessions}, fork=fork, audit_later=True)
            recorder.assert_unshared(sessions[0])
            for _ in range(2 if fork and 2 * count <= 1048576 else 1):
                ticks.longest = 0.0
                began = time.perf_counter()
                recorder.collect()
                called = time.perf_counter() - began
                in_call = ticks.longest
                recorder.wait()
                took = time.perf_counter() - began
                print(
                    "%s: the longest pause is %.0f ms until collect() returns after %.0f ms, %.0f ms in all; done after %.1f s"
                    % ("fork" if fork else "no fork", 1000 * in_call, 1000 * called, 1000 * ticks.longest, took),
                    flush=True,
                )
            recorder.abandon()


main()

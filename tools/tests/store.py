#!/usr/bin/env python3
"""Tries examples/store: its judge of histories and its dictionary, and, over the library for applications in the folder $LIBRARY, three processes of which
one is killed and comes back, and a rehearsal of the torture.
"""
import asyncio
import glob
import os
import signal
import subprocess
import sys
import tempfile
import time

from journals import free_ports
from tree import TOP

STORE = os.path.join(TOP, "examples", "store")
sys.path.insert(0, STORE)
from linear import Call, is_linearizable  # pylint: disable=wrong-import-position
from machine import Store, fault  # pylint: disable=wrong-import-position

STACKC = os.environ["STACKC"]
WRONG = []


def wants(what, is_so):
    if not is_so:
        WRONG.append(what)
        print(f"not so: {what}")


def put(value, called, answered=float("inf")):
    return Call({"op": "put", "key": "k", "value": value}, called, answered, None if answered == float("inf") else {"value": value})


def get(value, called, answered):
    return Call({"op": "get", "key": "k"}, called, answered, {"value": value})


def add(called, answered, value=None):
    return Call({"op": "add", "key": "k", "value": 1}, called, answered, None if value is None else {"value": value})


# Histories of a key, and whether they are linearizable.
HISTORIES = [
    ([put(1, 0, 1), get(1, 2, 3)], True),
    ([put(1, 0, 1), get(None, 2, 3)], False),
    ([put(1, 0, 5), get(None, 1, 2), get(1, 3, 4)], True),
    ([put(1, 0, 5), get(1, 1, 2), get(None, 3, 4)], False),
    ([put(1, 0), get(None, 2, 3), get(1, 4, 5)], True),
    ([put(1, 0), get(1, 2, 3), get(None, 4, 5)], False),
    ([put(1, 0, 9), put(2, 0, 9), get(1, 4, 5), get(2, 6, 7)], True),
    ([put(1, 0, 9), put(2, 0, 9), get(1, 4, 5), get(2, 6, 7), get(1, 7.5, 8)], False),
    ([put(1, 0, 1), put(2, 2, 3), get(1, 4, 5)], False),
    ([add(0, 1, 1), add(0, 1, 2)], True),
    ([add(0, 1, 1), add(0, 1, 1)], False),
    ([add(0, float("inf")), add(2, 3, 2)], True),
    ([add(2, 3, 2)], False),
]


def try_parts():
    """The judge and the dictionary, by themselves."""
    for number, (calls, answer) in enumerate(HISTORIES):
        wants(f"history {number}", is_linearizable(calls) == answer)
    store = Store()
    ops = [("put", "value", 1), ("add", "value", 2), ("get", "value", None)]
    answers = [store.do({"op": op, "key": "k", name: value})["value"] for op, name, value in ops]
    wants("the dictionary", answers == [1, 3, 3] and store.do({"op": "cas", "key": "k", "old": 1, "new": 2}) == {"done": False, "value": 3})
    wants("no operation", all(fault(op) for op in ({}, [], {"op": "get"}, {"op": "add", "key": "k", "value": "1"}, {"op": "put", "key": "k", "value": True}, {"op": "add", "key": "k", "value": 2**63})))


class Three:
    """Three processes in a folder."""

    def __init__(self, folder):
        self.folder, self.list, self.running = folder, os.path.join(folder, "three.txt"), {}
        ports = free_ports(6)
        with open(self.list, "w", encoding="ascii") as file:
            file.write("".join(f"{me} 127.0.0.1:{ports[me]} 127.0.0.1:{ports[me + 3]}\n" for me in range(3)))

    def start(self, me, *more):
        words = [sys.executable, os.path.join(STORE, "store.py"), str(me), self.list, "--log", self.folder, "--after", "2000", *more]
        self.running[me] = subprocess.Popen(words)

    def ask(self, me, op):
        """An answer, as soon as there is one without an error."""
        from store import ask, processes  # pylint: disable=import-outside-toplevel

        until, answer = time.monotonic() + 60, None
        while time.monotonic() < until:
            try:
                answer = asyncio.run(ask(processes(self.list)[me][1], op))
            except (OSError, ValueError):
                answer = {"error": "none"}
            if "error" not in answer and answer.get("state") != "out":
                return answer
            time.sleep(0.1)
        return answer

    def end(self):
        for process in self.running.values():
            process.send_signal(signal.SIGINT)
        for process in self.running.values():
            process.wait(30)


def try_three(folder):
    """A write is read elsewhere; who is killed isn't needed, and comes back to what was written meanwhile; and the program judges the logs."""
    three = Three(folder)
    for me in range(3):
        three.start(me, "--first", "1")
    try:
        wants("a write", three.ask(0, {"op": "put", "key": "a", "value": 1}) == {"value": 1})
        wants("it is read elsewhere", three.ask(2, {"op": "get", "key": "a"}) == {"value": 1})
        three.running[0].kill()
        three.running[0].wait()
        wants("the others go on", three.ask(1, {"op": "add", "key": "a", "value": 1}) == {"value": 2})
        three.start(0)
        wants("it comes back", three.ask(0, {"op": "get", "key": "a"}) == {"value": 2})
        wants("under another stamp", three.ask(1, {"op": "state"})["stamp"] == 2)
    finally:
        three.end()
    import store  # pylint: disable=import-outside-toplevel
    from juqhanep import log  # pylint: disable=import-outside-toplevel

    layers = os.path.join(folder, "stack.layers")
    with open(layers, "w", encoding="ascii") as file:
        file.write(store.stack_of(os.path.join(TOP, "layers", "safe.layers"), 2000))
    logs = [path[:-7] for path in glob.glob(os.path.join(folder, "*-[12]-*.script"))]
    wants("there are logs", len(logs) == 4)
    for name in logs:
        verdict = log.judge(layers, name, lambda path, script: log.replay(STACKC, path, script))
        wants(f"a log {verdict}", verdict.agrees)


def main():
    try_parts()
    if os.environ.get("LIBRARY"):
        os.environ["JUQHANEP_LIBRARY"] = os.path.join(os.path.abspath(os.environ["LIBRARY"]), "libjuqhanep.so")
        with tempfile.TemporaryDirectory(prefix="store-") as folder:
            try_three(folder)
        rehearsed = subprocess.run([sys.executable, os.path.join(STORE, "rehearse.py"), "--seconds", "5"], stdout=subprocess.PIPE, check=False)
        wants(f"a rehearsal: {rehearsed.stdout.decode()}", rehearsed.returncode == 0)
    else:
        print("store: LIBRARY names no folder, so no process was tried")
    print(f"store: {len(HISTORIES)} histories, {len(WRONG)} not so")
    return 1 if WRONG else 0


if __name__ == "__main__":
    sys.exit(main())

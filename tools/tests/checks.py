#!/usr/bin/env python3
"""Bounded checks by the program in $STACKCHECK: small families have as many scripts as an independent counter found, a breach is one by $STACKC and a family of one event less holds, and
what can't be checked is refused."""
import os
import subprocess
import sys
import tempfile

from tree import TOP

PROGRAM = os.environ.get("STACKCHECK", "")
STACKC = os.environ["STACKC"]
COUNTER = os.path.join(TOP, "examples", "counter.layers")
ORDER = os.path.join(TOP, "examples", "order.layers")
TWO_CASTS = "group 1 stamp 1 members 3\ncast 0 6161\ncast 0 6262\n"
EACH_CASTS = "group 1 stamp 1 members 3\n" + "".join(f"cast {m} 6{m}6{k}\n" for m in range(3) for k in range(2))
WRONG = []


def wants(what, is_so):
    if not is_so:
        WRONG.append(what)
        print(f"not so: {what}")


def ran(*words):
    found = subprocess.run(words, stdin=subprocess.DEVNULL, stdout=subprocess.PIPE, stderr=subprocess.PIPE, timeout=120)
    return found.returncode, found.stdout.decode(), found.stderr.decode()


def checked(path, acts, law, events, *more):
    return ran(PROGRAM, path, acts, "--law", law, "--events", str(events), *more)


def put(folder, name, text):
    path = os.path.join(folder, name)
    with open(path, "w", encoding="utf-8") as file:
        file.write(text)
    return path


def holds(law, events, scripts, repeats=0, members=3):
    return 0, f"holds {law} events {events} repeats {repeats} members {members} scripts {scripts}\n", ""


def try_counts(folder):
    """How many scripts there are of 0, 1, 2 and 3 events, by a program of its own over another reading of the rules."""
    acts = put(folder, "each.acts", EACH_CASTS)
    for path, law, counts in ((COUNTER, "sender", (1, 3, 15, 84)), (ORDER, "total", (1, 3, 13, 66))):
        for events in (1, 2, 3):
            scripts = sum(counts[:events + 1])
            wants(f"{os.path.basename(path)} has {scripts} scripts of at most {events} events", checked(path, acts, law, events) == holds(law, events, scripts))


def try_breach(folder):
    """A layer that only counts breaks the order of casts with four events, and not with three."""
    acts = put(folder, "two.acts", TWO_CASTS)
    wants("no three events break it", checked(COUNTER, acts, "sender", 3)[0] == 0)
    for events in (4, 5):
        status, script, said = checked(COUNTER, acts, "sender", events)
        wants(f"four of {events} events break it", (status, said, len(script.splitlines())) == (8, "breach\n", 8))
    status, report, _said = ran(STACKC, "replay", COUNTER, put(folder, "a.script", script))
    wants("what is found is a script", status == 0)
    status, finding, _said = ran(STACKC, "audit", put(folder, "a.report", report), "--law", "sender")
    wants("its report breaks the law", status == 8)
    lines = report.splitlines()
    told = ["# breaks sender"] + [f"# line {number}: {lines[int(number) - 1]}" for number in finding.split()[1:]]
    wants("the comments tell how", script.splitlines()[:3] == told)


def try_rest(folder):
    acts = put(folder, "two.acts", TWO_CASTS)
    each = put(folder, "each.acts", EACH_CASTS)
    status, line, said = checked(ORDER, each, "total", 1000, "--seconds", "1")
    wants("the time is up", (status, said, line.split()[:2]) == (10, "unfinished\n", ["holds", "to"]))
    wants("other events are left out", checked(COUNTER, put(folder, "more.acts", TWO_CASTS + "give 1 1\nstate 0\n"), "sender", 3) == checked(COUNTER, acts, "sender", 3))
    wants("a packet may come again", checked(COUNTER, acts, "sender", 3, "--repeats", "1")[1].split()[4:6] == ["repeats", "1"])
    wants("a stack file is refused", checked(put(folder, "bad.layers", "stack { nowhere; }\n"), acts, "same", 2) == (1, "", "file: unknown 1:9\n"))
    wants("acts are refused", checked(COUNTER, put(folder, "bad.acts", "group 1 stamp 1 members 3\ncast 3 61\n"), "same", 2) == (3, "", "script: member 2\n"))
    wants("no law of that name", checked(COUNTER, acts, "none", 2) == (2, "", "words: refused\n"))
    wants("some events have to be asked for", checked(COUNTER, acts, "total", 0) == (2, "", "words: refused\n"))
    wants("a file isn't there", checked(COUNTER, os.path.join(folder, "none"), "total", 2) == (4, "", "read fault\n"))


def main():
    if not PROGRAM:
        print("checks: STACKCHECK names no program, so none was tried")
        return 0
    with tempfile.TemporaryDirectory(prefix="stackc-") as folder:
        try_counts(folder)
        try_breach(folder)
        try_rest(folder)
    print(f"checks: {len(WRONG)} not so")
    return 1 if WRONG else 0


if __name__ == "__main__":
    sys.exit(main())

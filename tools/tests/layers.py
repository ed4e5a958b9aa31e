#!/usr/bin/env python3
"""Tries the layers of layers/ over the programs in $STACKC, $LAYERFMT and $STACKHUNT; those of which a name isn't set try nothing.

    tools/tests/layers.py [--long]

Each layer and each stack is accepted and in its one layout, each entry of a stack is fused, and the stacks are what tools/stacks.py makes. What docs/LIBRARY.md says that an
application sees is seen. Seeded hunts over the stacks stay empty, and of ten layers with one line changed a hunt finds those that it can find, no others:
for the rest the three laws have no word. `--long` hunts some forty times longer.
"""
import glob
import os
import re
import subprocess
import sys

from program import runs
from tree import TOP

LAYERFMT = os.environ.get("LAYERFMT", "")
STACKHUNT = os.environ.get("STACKHUNT", "")
FOLDER = os.path.join(TOP, "layers")
LAWS = ("sender", "total", "same")
# Members and events of the hunts that stay empty, the runs of each law, and those of a long test.
HUNTS = [
    ("strong", 2, 200, 400, 20_000), ("strong", 3, 200, 600, 20_000), ("strong", 3, 600, 200, 5_000), ("strong", 4, 200, 300, 20_000), ("strong", 5, 200, 200, 10_000),
    ("safe", 3, 400, 200, 5_000), ("library", 3, 400, 200, 5_000), ("fifo", 3, 400, 200, 5_000),
]
SEED = 20_000_000
# Suspicions come and go all the time: a ping each 20 ms, and a member is suspected after 50.
NERVOUS = [("detect;", "detect(every = 20, after = 50);"), ("member;", "member(gap = 20, patience = 1000);")]


def read(name):
    with open(os.path.join(FOLDER, name), encoding="utf-8") as file:
        return file.read()


def try_texts(made):
    """Layers and stacks are accepted and laid out, and entries of stacks fused."""
    stale = subprocess.run([sys.executable, "-B", os.path.join(TOP, "tools", "stacks.py"), "--check"], stdout=subprocess.PIPE, check=False)
    made.compare("tools/stacks.py --check", (stale.returncode, stale.stdout), (0, b""))
    for path in sorted(glob.glob(os.path.join(FOLDER, "*.layer*"))):
        name = os.path.basename(path)
        text, is_stack = read(name), name.endswith(".layers")
        made.put("one.layers", text if is_stack else f"{text}stack {{ {name[:-6]}; }}\n")
        made.compare(name, made.run(["check", "one.layers"])[0], 0)
        if is_stack:
            made.compare(f"{name}: absent entries", re.findall(r"^end \d+ fused (\d+) absent$", made.run(["synth", "one.layers"])[1], re.M), ["0"])
        if LAYERFMT:
            laid_out = subprocess.run([LAYERFMT, path], stdin=subprocess.DEVNULL, stdout=subprocess.PIPE, check=False)
            made.compare(f"{name}: its layout", (laid_out.returncode, laid_out.stdout.decode()), (0, text))


def report_of(made, stack, lines):
    made.put("a.script", "\n".join(["group 1 stamp 1 members 3", *lines]) + "\n")
    status, report, _said = made.run(["replay", os.path.join(FOLDER, stack), "a.script"])
    made.compare(f"{stack}: a script is run", status, 0)
    return [line for line in report.splitlines() if not line.startswith(("packet ", "timer ", "end "))]


def try_answers(made):
    """What an application sees of its casts where nothing comes of them, and a member alone goes out."""
    casts = [f"cast 1 {number:02x}" for number in range(18)]
    full = ["deliver 1 send 1 10", "block 1 1", "deliver 1 send 1 11"]
    made.compare("the window is full", report_of(made, "strong.layers", casts), full)
    own = [f"deliver 1 cast 1 {number:02x}" for number in range(16)]
    made.compare("the window of fifo is full", report_of(made, "fifo.layers", casts), [*own, *full])
    ticks = [f"tick 1 {moment}" for moment in range(1000, 5000, 100)]
    made.compare("a member alone goes out", report_of(made, "strong.layers", ["cast 1 61", *ticks]), ["announce 1 0", "out 1", *["refused 1 out"] * 12])
    views = [f"tick {me} {moment}" for moment in range(1000, 4000, 100) for me in (0, 1)]
    made.compare("without a network nobody has a quorum", [line for line in report_of(made, "strong.layers", views) if "view" in line], [])


def hunted(path, law, members, events, count, seed):
    words = [STACKHUNT, path, "--law", law, "--members", str(members), "--events", str(events), "--runs", str(count), "--seed", str(seed)]
    found = subprocess.run(words, stdin=subprocess.DEVNULL, stdout=subprocess.PIPE, stderr=subprocess.PIPE, check=False)
    return found.returncode, found.stdout.decode()


def nervous(text):
    for calm, other in NERVOUS:
        text = text.replace(f" {calm} ", f" {other} ")
    return text


def try_hunts(made, is_long):
    """No hunt finds a breach in a stack as it is."""
    made.put("nervous.layers", nervous(read("strong.layers")))
    stacks = [(os.path.join(FOLDER, f"{name}.layers"), *rest) for name, *rest in HUNTS] + [(os.path.join(made.folder, "nervous.layers"), 3, 400, 200, 10_000)]
    for path, members, events, count, more in stacks:
        for law in LAWS if "fifo" not in path else ("sender", "same"):
            count = more if is_long else count
            made.compare(f"{path}: {law}, {members} members, {events} events", hunted(path, law, members, events, count, SEED), (0, f"holds {count}\n"))


# What is changed: the layer, which of its lines that begin so (from 0), what stands there instead; the law that a hunt finds broken, and the first run from
# 1 on, of 400 events with three members, that breaks it. Where there is none no hunt of 5,000 runs finds a thing.
CHANGED = [
    ("casts are delivered while the view changes", "keep", "    if (blocked == 0) {", 0, "    if (blocked == blocked) {", ("same", 1088)),
    ("the shortest list in place of the longest", "member", "      else { if (((v | best) == 0) and (c > last))", 0, "      else { if (((v | best) == 0) and (c < last))", ("same", 20)),
    ("the end of the list isn't delivered", "keep", "    if (got < c) {", 0, "    if (got > c) {", ("same", 20)),
    ("a told vote isn't adopted", "member", "      if (v > best) {", 0, "      if (v > 4000000) {", ("same", 4065)),
    ("no quorum", "member", "    let quorum = (((count(good) * 2) + (good & 1)) > n);", 0, "    let quorum = 1;", None),
    ("decided without a quorum of votes", "member", "        if ((((votes | suspected) & next) == next) and (((count(votes) * 2) + (votes & 1)) > n)) {", 0,
     "        if (((votes | suspected) & next) == next) {", None),
    ("asks are taken twice", "order", "    if (k == next[o]) {", 0, "    if (k <= next[o]) {", None),
    ("room for twice as many", "admit", "  state int room = pick((n <= 4), 16,", 0, "  state int room = pick((n <= 4), 32,", None),
    ("votes without having the casts", "member", "        if (have < c) { up Ack(o, c); }", 0, "        if (have < 0) { up Ack(o, c); }", None),
    ("the decision taken without having the casts", "member", "    if (have < c) { up Ack(o, c); }", 0, "    if (have < 0) { up Ack(o, c); }", None),
]


def changed(layer, line, place, other):
    """The text of strong.layers with one line of a layer changed."""
    text = read("strong.layers")
    at = text.index(f"layer {layer} {{")
    for _ in range(place + 1):
        at = text.index("\n" + line, at + 1)
    return text[:at + 1] + other + text[at + 1 + len(line):]


def try_changed(made, is_long):
    """Of changed layers those are found that can be."""
    path = os.path.join(made.folder, "changed.layers")
    for what, layer, line, place, other, found in CHANGED:
        made.put("changed.layers", changed(layer, line, place, other))
        if found:
            law, first = found
            status, script = hunted(path, law, 3, 400, 5000 if is_long else 1, 1 if is_long else first)
            made.compare(f"{what}: found", (status, re.findall(r"^# run (\d+) of", script, re.M)), (8, [str(first)]))
            continue
        for law in LAWS:
            count = 5000 if is_long else 50
            made.compare(f"{what}: {law}", hunted(path, law, 3, 400, count, 1), (0, f"holds {count}\n"))


def main():
    is_long = sys.argv[1:] == ["--long"]
    with runs("layers") as made:
        try_texts(made)
        try_answers(made)
        if STACKHUNT:
            try_hunts(made, is_long)
            try_changed(made, is_long)


if __name__ == "__main__":
    main()

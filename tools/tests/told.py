#!/usr/bin/env python3
"""Replays the examples with `--events`, in both modes, by the traces of a file, and with each further word.

Without the lines of events a report is the one without the word; these lines are the script's events; and `audit` and `runchart` read such a report as they
read the one without: the same law is broken by the same two lines, and each line has its mark.
"""
import itertools
import os
import subprocess
import sys
import tempfile
import xml.etree.ElementTree as tree_of

from tree import TOP

STACKC = os.environ["STACKC"]
RUNCHART = os.environ.get("RUNCHART", "")
RUNS = [("order", "order"), ("views", "views"), ("behind", "behind"), ("mended", "behind"), ("hasty", "hasty"), ("counter", "hi"), ("counter", "twice")]
FURTHER = [[word for word, given in zip(("--wire", "--count"), flags) if given] for flags in itertools.product((False, True), repeat=2)]
SVG = "{http://www.w3.org/2000/svg}"
WRONG = []


def wants(what, is_so):
    if not is_so:
        WRONG.append(what)
        print(f"not so: {what}")


def run(*words):
    """What a run of a program writes, and its status."""
    ran = subprocess.run(words, stdin=subprocess.DEVNULL, stdout=subprocess.PIPE, stderr=subprocess.PIPE, timeout=60, check=False)
    return ran.stdout.decode(), ran.returncode


def events_of(path):
    """The lines of a script that say events, as the program spells them."""
    with open(path, encoding="ascii") as file:
        lines = [line.split("#")[0].split() for line in file]
    return [" ".join(words).lower() for words in lines if words][1:]


def is_event(line):
    return line.startswith("> ")


def audited(report, law, folder):
    """What an audit finds of a report: `holds`, or the two lines of the breach."""
    path = os.path.join(folder, "a.report")
    with open(path, "w", encoding="ascii") as file:
        file.write(report)
    said, status = run(STACKC, "audit", path, "--law", law)
    lines = report.splitlines()
    return [lines[int(number) - 1] for number in said.split()[1:]] if status == 8 else said


def is_drawn(report, folder):
    """Whether each line has its mark."""
    path = os.path.join(folder, "a.report")
    with open(path, "w", encoding="ascii") as file:
        file.write(report)
    picture, status = run(RUNCHART, path)
    groups = [group for group in tree_of.fromstring(picture).iter(SVG + "g") if group.get("id", "").startswith("L")] if status == 0 else []
    return [group.find(SVG + "title").text for group in groups] == report.splitlines()


def try_replay(name, script, words, folder):
    """A replay with the events beside the one without."""
    what = f"replay {name} {os.path.basename(script)} {' '.join(words)}"
    plain, told = run(STACKC, "replay", name, script, *words), run(STACKC, "replay", name, script, "--events", *words)
    lines = told[0].splitlines(keepends=True)
    wants(f"{what}: without its events it is the report without the word", ("".join(line for line in lines if not is_event(line)), told[1]) == plain)
    wants(f"{what}: its events are the script's", [line[2:-1] for line in lines if is_event(line)] == events_of(script))
    for law in ("sender", "total", "same"):
        wants(f"{what}: audits by {law} find the same", audited(told[0], law, folder) == audited(plain[0], law, folder))
    if RUNCHART:
        wants(f"{what}: each line has its mark", is_drawn(told[0], folder))


def main():
    tried = 0
    with tempfile.TemporaryDirectory(prefix="stackc-") as folder:
        for layers, script in RUNS:
            name, path = (os.path.join(TOP, "examples", file) for file in (layers + ".layers", script + ".script"))
            traces = os.path.join(folder, "a.bypasses")
            with open(traces, "w", encoding="ascii") as file:
                file.write(run(STACKC, "pack", name)[0])
            for ways, further in itertools.product((["--run", "layered"], [], ["--with", traces]), FURTHER):
                try_replay(name, path, [*ways, *further], folder)
                tried += 1
    print(f"told: {tried} replays with their events, {len(WRONG)} not so")
    sys.exit(bool(WRONG))


if __name__ == "__main__":
    main()

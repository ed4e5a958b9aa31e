#!/usr/bin/env python3
"""Draws reports by the program in $RUNCHART: each line has its mark, each reception its arrow and each packet that never arrived its stub, pictures are well formed, and what is no report is refused at its line."""
import os
import subprocess
import sys
import tempfile
import xml.etree.ElementTree as tree_of

from tree import TOP

PROGRAM = os.environ.get("RUNCHART", "")
STACKC = os.environ["STACKC"]
RUNS = [("order", ["--wire", "--count"]), ("views", []), ("behind", ["--run", "layered"])]
SVG = "{http://www.w3.org/2000/svg}"
WRONG = []


def wants(what, is_so):
    if not is_so:
        WRONG.append(what)
        print(f"not so: {what}")


def report_of(name, more):
    """The report of an example."""
    files = [os.path.join(TOP, "examples", name + end) for end in (".layers", ".script")]
    return subprocess.run([STACKC, "replay", *files, *more], stdin=subprocess.DEVNULL, stdout=subprocess.PIPE, timeout=60, check=True).stdout


def drawn(text, folder, *more):
    """What is drawn of a text: the status, the picture, and what is said."""
    path = os.path.join(folder, "a.report")
    with open(path, "wb") as file:
        file.write(text)
    ran = subprocess.run([PROGRAM, path, *more], stdin=subprocess.DEVNULL, stdout=subprocess.PIPE, stderr=subprocess.PIPE, timeout=60)
    return ran.returncode, ran.stdout, ran.stderr


def marks_in(picture):
    """The numbers and titles of the lines that have marks, in order."""
    groups = [group for group in tree_of.fromstring(picture).iter(SVG + "g") if group.get("id", "").startswith("L")]
    return [(int(group.get("id")[1:]), group.find(SVG + "title").text) for group in groups]


def try_report(name, report, folder):
    lines = report.decode().splitlines()
    status, picture, _said = drawn(report, folder)
    wants(f"{name}: each line has its mark", status == 0 and marks_in(picture) == list(enumerate(lines, 1)))
    status, picture, _said = drawn(report, folder, "--from", "3", "--to=5")
    wants(f"{name}: lines 3 to 5 have theirs", status == 0 and marks_in(picture) == list(enumerate(lines, 1))[2:5])
    whole = report.splitlines(keepends=True)
    closed = next(k for k, line in enumerate(lines) if line.startswith("end "))
    for k in range(closed + 1):
        wants(f"{name}: cut before line {k + 1}", drawn(b"".join(whole[:k]), folder) == (1, b"", f"file: line {k + 1}\n".encode()))


def told_report(name):
    """The report of an example with its events, as a journal has them: before the lines of each event that event, after the sign `>`."""
    with open(os.path.join(TOP, "examples", name + ".script"), encoding="utf-8") as file:
        group, *events = [line for line in file.read().splitlines() if line and not line.startswith("#")]
    told, done = [], 0
    with tempfile.TemporaryDirectory(prefix="stackc-") as folder:
        path = os.path.join(folder, "a.script")
        for count in range(1, len(events) + 1):
            with open(path, "w", encoding="utf-8") as file:
                file.write("\n".join([group, *events[:count], ""]))
            ran = subprocess.run([STACKC, "replay", os.path.join(TOP, "examples", name + ".layers"), path], stdin=subprocess.DEVNULL, stdout=subprocess.PIPE, timeout=60, check=True)
            lines = ran.stdout.decode().splitlines()[:-1]
            told += ["> " + events[count - 1], *lines[done:]]
            done = len(lines)
    return "\n".join([*told, f"end {len(events)}", ""]).encode()


def places_in(picture):
    """Where each line's sign stands, and the arrow that leads there, if there is one."""
    signs, arrows = {}, {}
    for group in tree_of.fromstring(picture).iter(SVG + "g"):
        if group.get("id", "").startswith("L"):
            number = int(group.get("id")[1:])
            signs[number] = tuple(group.find(SVG + "use").get(name) for name in ("x", "y"))
            arrow = group.find(SVG + "line")
            if arrow is not None:
                arrows[number] = tuple(arrow.get(name) for name in ("x1", "y1", "x2", "y2"))
    return signs, arrows


def try_receptions(name, folder):
    """Each packet that is given has its arrow, from the packet's sign to that of the event, and there are no others."""
    report = told_report(name)
    status, picture, _said = drawn(report, folder)
    signs, arrows = places_in(picture)
    sent, wanted = {}, {}
    for number, line in enumerate(report.decode().splitlines(), 1):
        words = line.split(" ")
        if words[0] == "packet":
            sent[words[1]] = number
        if words[:2] == [">", "give"] and words[2] in sent:
            wanted[number] = signs[sent[words[2]]] + signs[number]
    wants(f"{name}: each reception has its arrow", status == 0 and wanted and arrows == wanted)


def marks_of(picture):
    return [group for group in tree_of.fromstring(picture).iter(SVG + "g") if group.get("id", "").startswith("L")]


def stubs_in(picture):
    """The titles of the stubs, in order."""
    return [group.find(SVG + "title").text for group in tree_of.fromstring(picture).iter(SVG + "g") if group.get("class") == "stub" and group.find(SVG + "title") is not None]


def try_stubs(folder):
    """A packet has a stub towards each member to which it went and was not given, by its sender's view; none where no reception is told."""
    lines = ["packet 1 0 all - 61", "packet 2 2 1 - 62", "> give 1 1", "view 2 1 6", "packet 3 2 0 - 63", "packet 4 2 all - 64", "> give 4 1", "packet 5 0 2 - 65", "end 2", ""]
    wanted = [f"packet {number} never reached {member}" for number, member in ((1, 2), (5, 2), (2, 1), (3, 1))]
    _status, picture, _said = drawn("\n".join(lines).encode(), folder)
    wants("stubs lead towards those that packets never reached", stubs_in(picture) == wanted)
    _status, picture, _said = drawn("\n".join(line for line in lines if not line.startswith("> ")).encode(), folder)
    wants("without receptions there are no stubs", not stubs_in(picture))


def try_folded(folder):
    """A tick of which nothing came has a short bar and no words."""
    report = b"> tick 0 0\n> tick 0 100\ntimer 0 200\n> tick 0 200\n> leave 0\nend 4\n"
    _status, picture, _said = drawn(report, folder)
    groups = marks_of(picture)
    signs = [group.find(SVG + "use").get("href") for group in groups]
    words = [[text.text for text in group.iter(SVG + "text") if text.get("class") is None] for group in groups]
    wants("idle ticks are folded", signs == ["#idle", "#event", "#timer", "#idle", "#event", "#aside"] and words == [[], ["tick 100"], [], [], ["leave "], []])


def try_words(folder):
    """The words beside marks: headers that say something, and bodies as text or hex."""
    report = b"packet 1 0 all a.none()/b.num(7)/c.ask() 3c68693e\ndeliver 1 cast 0 00ff\ndeliver 1 cast 0 " + b"61" * 15 + b"\ntimer 0 100\nblock 0 4\nend 0\n"
    _status, picture, _said = drawn(report, folder)
    words = [[text.text for text in group.iter(SVG + "text") if text.get("class") is None] for group in marks_of(picture)]
    wants("words stand beside marks", words == [['num(7) ask() "<hi>"'], ["delivers 00ff"], ['delivers "aaaaaaaaaaaaaa"..'], [], ["block 4"], []])
    _status, picture, _said = drawn(report, folder, "--hide", "b")
    wants("the headers of a layer are left out", marks_of(picture)[0].find(SVG + "text").text == 'ask() "<hi>"')


def try_breach(folder):
    report = told_report("hasty")
    status, picture, _said = drawn(report, folder, "--breach", "3", "8")
    marked = [group.get("id") for group in tree_of.fromstring(picture).iter(SVG + "g") if group.get("class") == "breach"]
    wants("the two lines of a breach are red", status == 0 and marked == ["L3", "L8"])


def pictures():
    """The pictures of the documents: of a view change with its events; of casts that one member hears in another order, with the breach; of a repair with its events, up to the line before `state`; and of the breach that is found in the wrong Paxos."""
    order = told_report("order")
    last = next(number for number, line in enumerate(order.decode().splitlines()) if line == "> state 2")
    yield "view-change", told_report("views"), []
    yield "hasty", report_of("hasty", []), ["--breach", "2", "4"]
    yield "repair", order, ["--to", str(last)]
    wrong = told_report("paxos-wrong")
    delivered = [str(number) for number, line in enumerate(wrong.decode().splitlines(), 1) if line.startswith("deliver ")]
    yield "paxos", wrong, ["--breach", *delivered, "--hide", "bottom"]


def try_pictures(folder):
    """The pictures of the documents are the program's; with `--write` they are made anew."""
    for name, report, more in pictures():
        status, picture, said = drawn(report, folder, *more)
        path = os.path.join(TOP, "docs", "pictures", name + ".svg")
        if "--write" in sys.argv[1:] and (status, said) == (0, b""):
            with open(path, "wb") as file:
                file.write(picture)
        with open(path, "rb") as file:
            wants(f"docs/pictures/{name}.svg is what is drawn", (status, picture, said) == (0, file.read(), b""))


def main():
    if not PROGRAM:
        print("charts: RUNCHART names no program, so none was tried")
        return 0
    with tempfile.TemporaryDirectory(prefix="stackc-") as folder:
        for name, more in RUNS:
            try_report(name, report_of(name, more), folder)
        for name in ("order", "views", "hasty", "paxos-wrong"):
            try_receptions(name, folder)
        try_stubs(folder)
        try_folded(folder)
        try_words(folder)
        try_breach(folder)
        try_pictures(folder)
        long = b"".join(b"deliver %d cast 0 %04x\n" % (k % 3, k % 65536) for k in range(100000)) + b"end 100000\n"
        status, picture, _said = drawn(long, folder)
        wants("a report of 100,001 lines is drawn", status == 0 and picture.count(b"<g id='L") == 100001)
        for words in (["--from", "5", "--to", "4"], ["--from", "0"], ["--to", "x"], ["more"], ["--breach", "3"], ["--breach", "3", "x"], ["--breach", "0", "4"]):
            wants(f"{words} are refused", drawn(long, folder, *words) == (2, b"", b"words: refused\n"))
    print(f"charts: {len(RUNS)} reports, cut before each of their lines, and one of 100,001 lines, {len(WRONG)} not so")
    return 1 if WRONG else 0


if __name__ == "__main__":
    sys.exit(main())

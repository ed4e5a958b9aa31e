#!/usr/bin/env python3
"""Compares the program's `explain` with the independent reading, on random files and scripts.

Run it from any folder: diff/explain.py FILES [COUNT] [SEED]. FILES is `library`, for random stacks of the library's layers; `random`, for random layer
files that are accepted, made as those of diff/synth.py and written on more lines; `counter`, for the counter layer; or `rows`, for what is worked out by
hand below. Of each file a random script is explained, in which some packets that are given come as datagrams, now and then with a byte changed. The
program is the built one, or that of the environment's STACKC. What is written, what is said and the status must be those of the reading. It prints each
difference, and how many steps lacked what.

diff/explain.py --try COUNT [SEED] needs no program: it asks whether the reading, which looks at the decisions of the layered run, tells what traces
tell: those of fusing.py are followed on the states before each step, and stop at a check, whose place in the text is known without a run. The guard
must hold exactly where a step is told of no lack, the steps that are told must be those casts, sends and packets at which a replay by bypasses counts
visits, and at each line that is told the text must decide something. diff/explain.py --rows asks whether the reading tells what is worked out by hand.

diff/explain.py cases FOLDER [COUNT] [SEED] writes files and scripts of all kinds with what is to be written of them, and prints the words of a trial of the
program, which isn't proved, to be given in crates/stackc.
"""
import collections
import os
import random
import re
import sys
import tempfile

sys.path.insert(0, os.path.dirname(os.path.abspath(__file__)))
import check
import fusing
import reading
import replay
import rows
import running
import synth
import trying

TOLD = ("cast", "send", "give", "raw")


# What is worked out by hand: a file, a script, and what is told.

BOTH = """layer both {
  state int k;
  down Cast(p, m) {
    set k = (k + 1);
    if two (k == 1) {
      if (k > 5) { down Cast(p, m); }
    } else {
      if rare
        (k > 1) { down Send(p, m); }
    }
  }
  down Send(p, m) {
    if two (p == 0) { down Send(p, m); }
    else { each i below 1 max 1 { down Send(p, m); } }
  }
}
stack { both; }
"""
KEPT = """layer kept {
  state queue q[1] of (m: msg);
  header late() passes;
  down Cast(p, m)
    common
      (len(q)
        == 0) {
    push q (m) else { }
    take q (w) {
      down Cast(p, m) with late();
    } else { }
    push q (m) else { down Cast(p, m); }
  }
  up Cast(o, m) with late() { push q (m) else { } up Cast(o, m); }
  up Cast(o, m) { take q (w) { up Cast(o, w); } else { } }
}
layer above { up Cast(o, m) common (o == 0) { up Cast(o, m); } }
stack { kept; above; }
"""
ROWS = (
    ("examples/counter.layers", "group 1 stamp 7 members 3\ncast 0 6869\ngive 1 1\ngive 1 1\nstate 1\n", "miss 3 1 plan 0 visit 1 place 0 cnt line 9\nend 4\n"),
    ("examples/counter.layers", "group 1 stamp 7 members 3\nraw 1 e50000000100000007000000000000000700ff0061\nraw 1 e5\ngive 1 1\ntick 1 5\n",
     "miss 1 1 none noplan\nend 4\n"),
    ("examples/counter.layers", "group 1 stamp 7 members 3\ncast 0 -\nraw 1 e60000000100000007000000000000000700ff000000000061\n"
     "raw 2 e60000000100000007000000000000000700ff000000000161\n", "miss 3 2 plan 0 visit 1 place 0 cnt line 9\nend 3\n"),
    (rows.REPEATER, "group 1 stamp 1 members 1\ncast 0 -\n", "miss 1 0 cast absent loop 0\nend 1\n"),
    (rows.FLIP, "group 1 stamp 1 members 2\ncast 0 -\ncast 0 -\ngive 1 1\ngive 2 1\n", "miss 3 1 plan 0 absent rare 0\nmiss 4 1 plan 2 absent rare 0\nend 4\n"),
    (BOTH, "group 1 stamp 1 members 2\ncast 0 -\ncast 0 -\nsend 0 1 -\nsend 0 0 -\n",
     "miss 1 0 cast visit 1 place 0 both line 6 or visit 1 place 0 both line 5\nmiss 2 0 cast visit 1 place 0 both line 5 or visit 1 place 0 both line 8\n"
     "miss 3 0 send visit 1 place 0 both line 13 or absent loop 0\nend 4\n"),
    (KEPT, "group 1 stamp 1 members 3\ncast 0 61\ncast 0 62\ncast 1 63\ngive 3 2\ngive 1 2\ngive 3 0\n",
     "miss 2 0 cast visit 2 place 0 kept line 6\nmiss 4 2 plan 0 visit 2 place 1 above line 17\nmiss 5 2 plan 0 visit 1 place 0 kept line 14\n"
     "miss 6 0 plan 0 visit 1 place 0 kept line 14\nend 6\n"),
    ("examples/order.layers", "group 1 stamp 1 members 3\ncast 1 796f\ncast 0 6869\ngive 2 1\ngive 2 2\ngive 1 0\n",
     "miss 1 1 cast visit 1 place 3 total line 7\nmiss 5 0 none noplan\nend 5\n"),
)


def texts_of(row):
    file, script, _ = row
    if file.endswith(".layers"):
        with open(os.path.join(replay.TOP, file), "rb") as told:
            return told.read(), script.encode()
    return file.encode(), script.encode()


def rows_told():
    """Prints each row of which the reading tells otherwise; answers 1 where there is one."""
    wrong = [(row, told) for row in ROWS for told in [running.explain(*texts_of(row))] if told != (row[2], "", 0)]
    for (file, script, due), told in wrong:
        print(f"of\n{file}\nand\n{script}\nthis was to be told:\n{due}\nbut this was:\n{told}")
    print(f"{len(ROWS)} rows, {len(wrong)} differences")
    return 1 if wrong else 0


# Random files and scripts.


def spread(r, text):
    """A text on more lines, some with notes between its tokens: where something stands is told by lines."""
    odds = r.choice((0, 0.1, 0.4))
    apart = lambda token: r.choice(("\n", "\n\n", " # if push take\n", " \n ")) if token == " " and r.random() < odds else token
    return "".join(map(apart, check.TOKEN.findall(text.decode("latin-1")))).encode("latin-1")


def file_of(r, files):
    if files == "random":
        return spread(r, synth.random_file(r))
    return synth.library_file(r) if files == "library" else replay.file_of(r, files)


def datagram(r, wires):
    """A packet's bytes as it was sent in a mode, now and then with one of the last changed."""
    data = bytearray(wires[r.choice(replay.MODES)])
    if r.random() < 0.3:
        data[r.randrange(18, len(data))] = r.choice((0, 0, 1, 1, 2, 7))
    return bytes(data)


def script_of(r, text):
    """A script in which some of the packets that are given come as datagrams."""
    script = replay.script_of(r)
    try:
        world, _ = running.world_of(text, script)
    except reading.Refused:
        return script
    lines = script.decode().splitlines(keepends=True)
    for i, line in enumerate(lines):
        words = line.split()
        if words[:1] == ["give"] and int(words[1]) <= len(world.packets) and r.random() < 0.4:
            wires = world.packets[int(words[1]) - 1]["wires"]
            lines[i] = f"raw {words[2]} {datagram(r, wires).hex()}" + "\n" * line.endswith("\n")
        if words and words[0] in running.FORMS:
            world.event(running.event_of(lines[i].split()))
    return "".join(lines).encode()


# What traces tell.

# An entry's way through a stack in a case: why there is none, or its operations, where its checks stand, and its guarded handler.
Traced = collections.namedtuple("Traced", "reason operations spots guarded")


def traced(layers, entry, case):
    """None for a second case that meets no branch with two predicted ways."""
    way, reason = fusing.Way(layers, case), None
    try:
        way.go(entry)
    except fusing.Absent as absent:
        reason = str(absent)
    if case == 1 and not way.forked:
        return None
    if reason:
        return Traced(reason, None, None, None)
    operations = way.trace.operations
    return Traced(None, operations, way.spots, fusing.simplify(fusing.hoist(layers, operations)))


class World(running.World):
    """A world that keeps of each step what traces tell of it."""

    def __init__(self, world):
        super().__init__(world.layers, world.group, world.stamp, world.members)
        self.entries, self.ways, self.by_traces, self.wrong = fusing.entries_of(self.layers), {}, None, []

    def way(self, entry):
        if entry.name not in self.ways:
            self.ways[entry.name] = [way for case in (0, 1) for way in [traced(self.layers, entry, case)] if way]
        return self.ways[entry.name]

    def event(self, e):
        self.by_traces = None
        return super().event(e)

    def step(self, member, what, event):
        if what in ("cast", "send", "packet"):
            self.by_traces = self.told(member, what, event)
        return super().step(member, what, event)

    def told(self, member, what, event):
        """What a step lacks: None where a trace is followed to its end."""
        values = [v for _, _, fields in event["message"][0] for v in fields]
        entry = self.entries[0 if what == "cast" else 1] if what != "packet" else self.planned(event, values)
        if entry is None:
            return "none noplan"
        fields = [v for known, v in zip(entry.fields, values) if known is None]
        given = trying.Given(member.rank, member.n, member.view[0], event["peer"], fields, event["message"][1])
        lacks = [self.lack(way, member.states, given) for way in self.way(entry)]
        return None if None in lacks else f"{entry.name} " + " or ".join(lacks)

    def planned(self, event, values):
        """The first plan of an event's kind and headers whose known numbers are the event's."""
        tags = tuple(tag for _, tag, _ in event["message"][0])
        for entry in self.entries[2:]:
            if (entry.kind, entry.tags) == (event["kind"], tags) and all(known in (None, v) for known, v in zip(entry.fields, values)):
                return entry
        return None

    def lack(self, way, states, given):
        if way.reason:
            return f"absent {way.reason}"
        _, missed = trying.followed(self.layers, states, given, way.operations)
        if trying.holds(states, given, way.guarded) != (missed is None):
            self.wrong.append(f"a guard holds otherwise than its trace stops at {missed}")
        if missed is None:
            return None
        visit, place, line = way.spots[missed]
        return f"visit {visit} place {place} {self.layers[place].name} line {line}"


TOKEN = re.compile(r"#[^\n]*|\w+|[^\w\s]|\n")


def deciding_lines(text):
    """The lines of a text at which something is decided: a statement that decides begins there, or what is expected of a handler."""
    lines, line, before = set(), 1, None
    for token in TOKEN.findall(text):
        if token == "\n":
            line += 1
        elif token[0] != "#":
            if token in ("if", "push", "take") or before == "common":
                lines.add(line)
            before = token
    return lines


def stands(text, places, lack):
    """Whether the text decides something where a lack is said to stand, if it is."""
    words = lack.split()
    if words[0] != "visit":
        return True
    place, name, line = int(words[3]), words[4], int(words[6])
    own = re.search(rb"layer\s+(#[^\n]*\s+)*" + name.encode() + rb"\b", text)
    layer = text if own else reading.library()[name]
    return 1 <= int(words[1]) <= 256 and places[place] == name and line in deciding_lines(layer.decode("latin-1"))


class Try:
    """One file and script, told in all ways."""

    def __init__(self, text, script):
        self.text, self.script, self.wrong = text, script, []
        first, self.events = running.world_of(text, script)
        self.world = World(first)

    def lines(self):
        """What traces tell of the events, and how many of these a replay by bypasses counts visits for."""
        lines, counted = [], 0
        for number, e in enumerate(self.events, 1):
            before = self.world.visits["bypass"]
            self.world.event(e)
            if self.world.by_traces:
                lines.append(f"miss {number} {e[1]} {self.world.by_traces}\n")
            counted += e[0] in TOLD and self.world.visits["bypass"] > before
        return lines, counted

    def tells(self):
        """The differences, and the lines that are told."""
        told = running.explain(self.text, self.script)[0].splitlines(keepends=True)
        lines, counted = self.lines()
        wrong = list(self.world.wrong)
        if told != [*lines, f"end {len(self.events)}\n"]:
            wrong.append(f"the run tells {told}, traces tell {lines}")
        if len(told) - 1 != counted:
            wrong.append(f"{counted} steps are counted, and {len(told) - 1} told")
        places = [layer.name for layer in self.world.layers]
        for line in told[:-1]:
            if not all(stands(self.text, places, lack) for lack in lacks_in(line)):
                wrong.append(f"nothing is decided where it is told: {line}")
        return wrong, told[:-1]


def lacks_in(line):
    """The lacks that a line tells."""
    entry, rest = re.match(r"miss \d+ \d+ (plan \d+|\w+) (.*)", line).groups()
    return rest.split(" or ")


def tries(count=1000, seed=1):
    """Tries a number of files and scripts; answers 1 where there is a difference."""
    r, counts, wrong = random.Random(seed), collections.Counter(), 0
    for number in range(count):
        text = file_of(r, r.choice(("random", "random", "library", "counter")))
        script = script_of(r, text)
        try:
            one = Try(text, script)
        except reading.Refused:
            counts["refused"] += 1
            continue
        differences, told = one.tells()
        count_told(counts, told, len(one.events))
        for difference in differences:
            wrong += 1
            print(f"{replay.kept(f'differs-told-{seed}-{number}', (text, script))}: {difference}"[:2000])
        fusing.forget()
    print(f"{count} scripts, {wrong} differences:", ", ".join(f"{k} {v}" for k, v in counts.most_common()))
    return 1 if wrong else 0


def count_told(counts, told, events):
    counts["events"] += events
    for line in told:
        counts["told"] += 1
        lacks = lacks_in(line)
        counts["with a second case"] += len(lacks) > 1
        for lack in lacks:
            counts[" ".join(lack.split()[:2]) if lack.startswith("absent") else lack.split()[0]] += 1


# The comparison with the program.


def given(files, count, seed):
    if files == "rows":
        yield from map(texts_of, ROWS)
        return
    r = random.Random(seed)
    for _ in range(count):
        text = file_of(r, files)
        yield text, script_of(r, text)


def cases(folder, count=50, seed=1):
    """Files and scripts of all kinds, each with what is to be written of them."""
    words = [f"rt try --seconds 3600 --cases {folder}/files"]
    for name in ("files", "scripts"):
        os.makedirs(os.path.join(folder, name), exist_ok=True)
    for kind in ("rows", "library", "random", "counter"):
        for number, texts in enumerate(given(kind, int(count), int(seed))):
            told, said, _ = running.explain(*texts)
            if said:
                continue
            name, script = f"{kind}{number}", f"{kind}{number}.script"
            words.append(f"--data {script}={folder}/scripts/{script}")
            for path, text in ((f"files/{name}", texts[0]), (f"scripts/{script}", texts[1]), (f"files/{name}.args", script.encode() + b"\n"),
                               (f"files/{name}.stdout", told.encode())):
                with open(os.path.join(folder, path), "wb") as file:
                    file.write(text)
    print(" ".join([*words, "-- explain {}"]))


def compare(files, count, seed):
    """Compares a number of answers; answers 1 where there is a difference."""
    counts, number, differences = collections.Counter(), 0, 0
    with tempfile.TemporaryDirectory() as folder:
        paths = [os.path.join(folder, name) for name in ("random.layers", "random.script")]
        for number, texts in enumerate(given(files, count, seed), 1):
            for path, text in zip(paths, texts):
                with open(path, "wb") as file:
                    file.write(text)
            wanted, got = running.explain(*texts), replay.answer(["explain", *paths])
            lines = wanted[0].splitlines(keepends=True)
            count_told(counts, lines[:-1], int(lines[-1].split()[1]) if lines else 0)
            if got != wanted:
                differences += 1
                print(f"{replay.kept(f'differs-explain-{seed}-{number}', texts)}: the program answers {got}, the reading {wanted}"[:2000])
    print(f"{number} scripts, {differences} differences:", ", ".join(f"{k} {v}" for k, v in counts.most_common()))
    return 1 if differences else 0


def main():
    words = sys.argv[1:] or ["library"]
    if words[0] == "--rows":
        sys.exit(rows_told())
    if words[0] == "--try":
        sys.exit(tries(*map(int, words[1:])))
    if words[0] == "cases":
        cases(*words[1:])
        return
    count, seed = (int(w) if w else d for w, d in zip((words + ["", ""])[1:3], (500, 1)))
    sys.exit(compare(words[0], count, seed))


if __name__ == "__main__":
    main()

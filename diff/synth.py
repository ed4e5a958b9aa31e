#!/usr/bin/env python3
"""Compares the program's `synth` and `pack` with the independent reading of bypasses (fusing.py).

Run it from any folder: diff/synth.py FILES [COUNT] [SEED] [PROGRAM]. FILES is `library`, for random stacks of the library's layers; `random`, for random
layer files that are accepted, some made as those of diff/check.py, some drawn so that guards have much to say (drawing.py), and a few that are about as
long as they may be; `rows`, for the files of rows.py; or `each`, for each layer of the library alone, and all up to a layer or from it on. The program
is the built one, or that of the environment's STACKC. What is written, what is said and the status must be those of the reading. It prints the first
line of each difference, how many entries were fused, how many are absent for which reason, and how much the guards say; and ends with 1 where there is
a difference.

diff/synth.py cases FOLDER [COUNT] [SEED] writes such files of all kinds with what is to be written of each, so that a trial of the program, which isn't
proved, is compared on all of them after one build: in crates/stackc, rt try --seconds 3600 --cases FOLDER -- synth {}

diff/synth.py hostile FILE [PLACES], large FILE and heavy FILE [WRITES] [READS] write files by which `synth` is timed: one whose numbers double at each
of 24 places and whose message does at PLACES of them (24; its text then has 335 million bytes), one of 1,000,000 bytes whose cast has some 3,000
operations, and one with READS reads after WRITES writes (500 and 500; its text grows with their product).
"""
import collections
import os
import random
import subprocess
import sys
import tempfile

sys.path.insert(0, os.path.dirname(os.path.abspath(__file__)))
import drawing
import fusing
import reading
import replay
import rows

PROGRAM = os.environ.get("STACKC", replay.PROGRAM)


def library_file(r):
    """A stack of some of the library's layers, mostly in their own order, with a param now and then."""
    while True:
        names = [word for word in reading.library() if r.random() < 0.4] or ["bottom"]
        if r.random() < 0.3:
            r.shuffle(names)
        given = lambda word: "(%s = %d)" % r.choice(PARAMS[word]) if word in PARAMS and r.random() < 0.2 else ""
        text = ("stack { " + "".join(f"{word}{given(word)}; " for word in names) + "}\n").encode()
        if reading.check(text).startswith("accepted"):
            return text


PARAMS = {"mnak": [("keep", 1), ("gap", 0)], "pt2pt": [("keep", 2)], "pt2ptw": [("window", 0)], "mflow": [("window", 1)], "frag": [("piece", 2)]}


def random_file(r):
    kind = r.random()
    if kind < 0.03:
        return long_file(r)
    return drawing.file(r) if kind < 0.53 else replay.random_file(r)


def long_file(r):
    """A stack with a cast that is as long as a trace may be, give or take some operations, or that has about 256 visits."""
    if r.random() < 0.5:
        places = r.randint(1, 8)
        sets = (4096 - 1) // places - 1 + r.choice((-1, 0, 0, 1))
        block = "set k = (k + 1); " * sets + "down Cast(p, m);"
        return f"layer long {{ state int k; down Cast(p, m) {{ {block} }} }}\nstack {{ {'long; ' * places}}}\n".encode()
    places = "once; " * r.randint(0, 1) + "twice; " * r.randint(6, 8) + "once; " * r.randint(0, 2)
    return f"layer twice {{ down Cast(p, m) {{ down Cast(p, m); down Cast(p, m); }} }}\nlayer once {{ }}\nstack {{ {places}}}\n".encode()


def stacks():
    """Each layer of the library alone, the whole, and all that stands up to a layer or from it on."""
    names = "bottom mnak pt2pt pt2ptw mflow frag collect stable local total suspect elect sync intra top".split()
    lists = [[word] for word in names] + [names[:i] for i in range(2, len(names) + 1)] + [names[i:] for i in range(1, len(names) - 1)]
    for words in lists:
        text = ("stack { " + "".join(f"{word}; " for word in words) + "}\n").encode()
        if reading.check(text).startswith("accepted"):
            yield text


def files_of(kind, count=300, seed=1):
    r = random.Random(int(seed))
    if kind == "each":
        return stacks()
    if kind == "rows":
        return (file.encode() for file, _ in rows.ROWS)
    makes = {"library": library_file, "random": random_file}[kind]
    return (makes(r) for _ in range(int(count)))


def cases(folder, count=200, seed=1):
    """Files of all kinds, each with what is to be written of it."""
    os.makedirs(folder, exist_ok=True)
    for kind, many in (("rows", 0), ("each", 0), ("library", int(count) // 5), ("random", count)):
        for number, text in enumerate(files_of(kind, many, seed)):
            path = os.path.join(folder, f"{kind}{number}")
            with open(path, "wb") as file:
                file.write(text)
            with open(path + ".stdout", "w", encoding="utf-8") as file:
                file.write(fusing.synth(text))
            fusing.forget()


class Comparison:
    def __init__(self, program, folder):
        self.program, self.path = program, os.path.join(folder, "random.layers")
        self.counts, self.guards, self.files, self.wrong = collections.Counter(), collections.Counter(), 0, 0

    def compare(self, text):
        self.files += 1
        with open(self.path, "wb") as file:
            file.write(text)
        layers = fusing.layers_of(text)
        made = fusing.all_made(layers)
        self.count(made)
        self.compare_job("synth", text, fusing.lines_of(layers, made))
        self.compare_job("pack", text, fusing.packed_lines(layers, made))
        fusing.forget()

    def compare_job(self, job, text, lines):
        wanted = "".join(line + "\n" for line in lines)
        ran = subprocess.run([self.program, job, self.path], stdout=subprocess.PIPE, stderr=subprocess.PIPE, check=False)
        got = (ran.stdout.decode(), ran.stderr.decode().strip(), ran.returncode)
        if got != (wanted, "", 0):
            self.differs(text, got, wanted)

    def count(self, made):
        for case, one in ((case, one) for _, cases in made for case, one in enumerate(cases) if one):
            self.counts[one.reason.split()[0] if one.reason else ("fused", "second fused")[case]] += 1
            if not one.reason:
                self.guards["entry values"] += len(one.guarded.values)
                self.guards["conjuncts"] += len(one.guarded.conjuncts)
                self.guards["operations"] += len(one.guarded.operations)

    def differs(self, text, got, wanted):
        self.wrong += 1
        kept = os.path.join(tempfile.gettempdir(), f"differs-synth-{os.getpid()}-{self.files}.layers")
        with open(kept, "wb") as file:
            file.write(text)
        lines, due = got[0].splitlines(), wanted.splitlines()
        at = next((i for i, pair in enumerate(zip(lines, due)) if pair[0] != pair[1]), min(len(lines), len(due)))
        print(f"{kept}: the program ends with {got[2]} and {got[1]!r}; its line {at + 1} is {lines[at:at + 1]}, the reading's {due[at:at + 1]}"[:2000])

    def told(self):
        counts = ", ".join(f"{k} {v}" for k, v in self.counts.most_common())
        guards = ", ".join(f"{k} {v}" for k, v in self.guards.most_common())
        print(f"{self.files} files, {self.wrong} differences: {counts}; {guards}")


# Files to time the program by.

HOSTILE = """layer twice {
  state int k = 1;
  state int e[n] = 1;
  header h(v, w) passes;
  down Cast(p, m) {
    set k = (k + k);
    set e[(k & 1)] = (e[0] + e[me]);
    let x = (k * (e[0] + e[me]));
    if (((x + x) - (x * 2)) == ((k + k) - (k * 2))) { }
    if (size(m) <= size(join(cut(m, 0, k), m))) { }
    down Cast((p + p), m) with h((x + x), (e[me] + e[k]));
  }
  up Cast(o, m) with h(v, w) common ((v + v) == (w + w)) { set k = (v + w); up Cast((o + k), m); }
}
"""


def hostile(places=24):
    """Numbers that double at each of 24 places, and a message that does so at `places` of them."""
    doubling = HOSTILE.replace("twice", "again").replace("down Cast((p + p), m)", "down Cast((p + p), join(cut(m, 0, 1), m))")
    return HOSTILE + doubling + "stack { " + "twice; " * (24 - places) + "again; " * places + "}\n"


LARGE = """layer large%d {
%s  header h(v) passes;
  down Cast(p, m) {
%s    down Cast(p, m) with h(k0);
  }
  up Cast(o, m) with h(v) { up Cast(o, m); }
}
"""


def large_layer(i, statements):
    """A layer whose casts have many long statements, over cells that are written a few times each."""
    r, lines = random.Random(i), []
    cells = [f"k{j}" for j in range(12)] + [f"e{j}[{at}]" for j in range(4) for at in ("p", "me", "0")]

    def number(deep):
        if deep == 0:
            return r.choice(cells + ["p", "n", str(r.randrange(2**32))])
        return f"({number(deep - 1)} {r.choice(drawing.OPERATORS)} {number(deep - 1)})"

    for j in range(statements):
        lines.append(f"set {r.choice(cells)} = {number(4)};" if j % 6 == 0 else f"if {number(5)} {{ }}")
    declared = "".join(f"  state int k{j};\n" for j in range(12)) + "".join(f"  state int e{j}[n];\n" for j in range(4))
    block = "".join(f"    {line}\n" for line in lines)
    return LARGE % (i, declared, block)


def large(size=1_000_000):
    """A file of a million bytes, whose cast is as long as a trace may be."""
    stack = "stack { " + "".join(f"large{i}; " for i in range(24)) + "}\n"
    most = next(k for k in range(160, 0, -1) if sum(len(large_layer(i, k)) for i in range(24)) + len(stack) < size)
    text = "".join(large_layer(i, most) for i in range(24)) + stack
    return text + "#" + "x" * (size - len(text) - 2) + "\n"


HEAVY = """layer heavy {
  state int k;
  state int e[n];
  down Cast(p, m) {
%s    if %s { }
    down Cast(p, m);
  }
}
stack { heavy; }
"""


def heavy(writes=500, reads=500):
    """A cell that is written so often, and read so often after that, by other indexes each time."""
    sets = "".join(f"    set e[(k + {i})] = {i};\n" for i in range(writes))
    sums = [f"e[{i}]" for i in range(reads)]
    while len(sums) > 1:
        sums = [f"({' + '.join(sums[i:i + 2])})" if i + 1 < len(sums) else sums[i] for i in range(0, len(sums), 2)]
    return HEAVY % (sets, sums[0])


def main():
    words = sys.argv[1:] or ["library"]
    makes = {"hostile": hostile, "large": large, "heavy": heavy}.get(words[0])
    if words[0] == "cases":
        cases(*words[1:])
        return
    if makes:
        with open(words[1], "w", encoding="utf-8") as file:
            file.write(makes(*map(int, words[2:])))
        return
    with tempfile.TemporaryDirectory() as folder:
        comparison = Comparison(words[3] if len(words) > 3 else PROGRAM, folder)
        for text in files_of(*words[:3]):
            comparison.compare(text)
    comparison.told()
    sys.exit(1 if comparison.wrong else 0)


if __name__ == "__main__":
    main()

#!/usr/bin/env python3
"""Compares the program's `check` with the independent reading on random layer files.

Run it from any folder: diff/check.py [COUNT] [SEED] [PROGRAM]. Each file is made of layers of the library and of small ones, with a few
changes of tokens; what the program says of it must be what the reading says. It prints each difference, and how often each cause came.
"""
import collections
import os
import random
import re
import subprocess
import sys
import tempfile

sys.path.insert(0, os.path.dirname(os.path.abspath(__file__)))
import reading

TOP = os.path.dirname(os.path.dirname(os.path.abspath(__file__)))
TOKEN = re.compile(r"\s+|#[^\n]*|[A-Za-z_0-9]+|==|!=|<=|>=|.", re.S)
SMALL = [
    """layer cnt {
  state int k;
  state int e[n];
  header num(seq) passes;
  down Cast(p, m) { down Cast(p, m) with num(k); set k = (k + 1); }
  up Cast(o, m) with num(seq) common (seq == e[o]) { set e[o] = (seq + 1); up Cast(o, m); }
}
""",
    """layer sums {
  param most = 3;
  param keep = 2;
  state int sum[n*n] = (most + ltime);
  state queue kept[keep] of (x: int, m: msg);
  state queue bits[n][4] of (p: part);
  header last() passes;
  header some(a, b) ends;
  up Ack(o, c) common (c > 0) { each i below n max most { set sum[o][i] = pick((i == me), bit(c), sum[i][o]); } up Ack(o, count(c)); }
  down Cast(p, m) {
    take kept (y, old) { down Cast(y, old) with last(); } else { }
    push kept (most, join(cut(m, 0, most), tail(m, most))) else { down Send(p, nothing) with some(p, me); }
    if rare (size(held(kept, 0)) > at(kept, 0).x) { let z = len(bits[p]); up Cast(p, m); } else { up Cast(p, join(held(bits[0], 1), m)); }
  }
  up Send(o, m) with some(a, b) { push bits[o] (m) else { } if two (a == b) { up Timer(a); } }
}
""",
    "layer echo { down Cast(p, m) { up Cast(p, m); } up Cast(o, m) { if (o != me) { up Cast(o, m); } } }\n",
    "layer fan { header end() ends; up Cast(o, m) { each i below 16 max 16 { up Cast(o, m); } } down Leave(a) { down Cast(me, nothing) with end(); } }\n",
]


def pick_file(r):
    texts = [t.decode() for t in reading.library().values()] + SMALL
    layers = r.sample(texts, r.randint(1, 3))
    names = [t.split()[1] for t in layers]
    places = [r.choice(names + list(reading.library())) for _ in range(r.randint(1, 5))]
    given = lambda word: "(keep = %d)" % r.choice((0, 1, 64, 65)) if r.random() < 0.15 else ""
    return "".join(layers) + "stack { " + " ".join(p + given(p) + ";" for p in places) + " }\n"


def is_name(token):
    return token[0].isalpha() and token not in reading.RESERVED


def change(r, tokens):
    """One change: mostly of a name for another near it, so that texts stay files."""
    places = [i for i, t in enumerate(tokens) if not t.isspace()]
    i, kind = r.choice(places), r.random()
    if kind < 0.6:
        i = r.choice([j for j in places if is_name(tokens[j])])
        near = [t for t in tokens[max(0, i - 120):i + 120] if is_name(t)]
        tokens[i] = r.choice(near if r.random() < 0.9 else [t for t in tokens if is_name(t)])
    elif kind < 0.7:
        sorts = [j for j in places if tokens[j] in ("int", "msg", "part", "up", "down", "Cast", "Send", "Timer", "Ack", "View", "passes", "ends", "nothing", "m", "me", "0")]
        if sorts:
            tokens[r.choice(sorts)] = tokens[r.choice(sorts)]
    elif kind < 0.76:
        numbers = [j for j in places if tokens[j].isdigit()]
        if numbers:
            tokens[r.choice(numbers)] = str(r.choice((0, 1, 2, 16, 32, 33, 64, 65, 4294967295, 4294967296)))
    elif kind < 0.82:
        semicolons = [j for j in places if tokens[j] in ";}"]
        start = r.choice(semicolons)
        end = next((j for j in places if j > start and tokens[j] in ";}"), start)
        at = r.choice(semicolons)
        tokens[at + 1:at + 1] = tokens[start + 1:end + 1]
    elif kind < 0.86:
        commas = [j for j in places if tokens[j] == ","]
        if commas:
            at = r.choice(commas)
            tokens[at:at] = [",", " ", r.choice(["me", "nothing", "1", "m", "(n + 1)"])]
    elif kind < 0.9:
        tokens[i] = r.choice(tokens)
    elif kind < 0.94:
        tokens[i] = ""
    elif kind < 0.97:
        tokens.insert(i, r.choice(tokens) + " ")
    else:
        tokens[i] = r.choice(("$", "!", "a" * 33, "07", "1x", "\x80", "_a", "# x\n", "up", "nothing", "none"))
    return tokens


def main():
    count = int(sys.argv[1]) if len(sys.argv) > 1 else 2000
    seed = int(sys.argv[2]) if len(sys.argv) > 2 else 1
    program = sys.argv[3] if len(sys.argv) > 3 else f"{TOP}/crates/stackc/out/stackc"
    r, causes, differences = random.Random(seed), collections.Counter(), 0
    with tempfile.TemporaryDirectory() as folder:
        path = os.path.join(folder, "random.layers")
        for number in range(count):
            tokens = TOKEN.findall(pick_file(r))
            for _ in range(r.choice((0, 1, 1, 1, 2, 3))):
                tokens = [t for t in change(r, tokens) if t]
            text = "".join(tokens).encode("latin-1")
            with open(path, "wb") as file:
                file.write(text)
            wanted = reading.check(text)
            causes[" ".join(wanted.split()[:2])] += 1
            ran = subprocess.run([program, "check", path], stdout=subprocess.PIPE, stderr=subprocess.PIPE, check=False)
            said = (ran.stdout + ran.stderr).decode().strip()
            status = 0 if wanted.startswith("accepted") else 1
            if said != wanted or ran.returncode != status:
                differences += 1
                kept = os.path.join(tempfile.gettempdir(), f"differs-{seed}-{number}.layers")
                with open(kept, "wb") as file:
                    file.write(text)
                print(f"{kept}: the program says {said!r} with status {ran.returncode}, the reading {wanted!r}")
    print(f"{count} files, {differences} differences:", ", ".join(f"{k} {v}" for k, v in causes.most_common()))
    sys.exit(1 if differences else 0)


if __name__ == "__main__":
    main()

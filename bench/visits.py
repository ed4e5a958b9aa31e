#!/usr/bin/env python3
"""Counts the instructions of a visit.

Run it from any folder: bench/visits.py [PROGRAM]. A cast goes down through layers of one kind and back up from a layer below them, in a group
of one, so nothing but its delivery is written. What a visit takes is told by two stacks of which one has twenty layers more: the difference of
two counts, over the visits by which they differ. Last comes the stack of all library layers: the whole program's instructions over its visits,
reading and report included. It wants valgrind. The program is the one that ./stackc builds.
"""
import os
import re
import subprocess
import sys
import tempfile

TOP = os.path.dirname(os.path.dirname(os.path.abspath(__file__)))
LIBRARY = "bottom mnak pt2pt pt2ptw mflow frag collect stable local total suspect elect sync intra top".split()
CASTS = 2_000
BELOW = "layer back { down Cast(p, m) { up Cast(p, m); } }\n"
KINDS = {
    "no handler": "layer one { }\n",
    "a handler that passes its event on": "layer one { down Cast(p, m) { down Cast(p, m); } up Cast(o, m) { up Cast(o, m); } }\n",
    "a handler with a header, a number and a condition": (
        "layer one {\n  state int k;\n  header num(v) passes;\n"
        "  down Cast(p, m) { set k = (k + 1); down Cast(p, m) with num(k); }\n"
        "  up Cast(o, m) with num(v) { if (v == k) { up Cast(o, m); } }\n}\n"
    ),
}


class Bench:
    def __init__(self, program, folder):
        self.program, self.folder = program, folder

    def file(self, name, text):
        path = os.path.join(self.folder, name)
        with open(path, "w", encoding="ascii") as file:
            file.write(text)
        return path

    def counted(self, stack, script):
        """The instructions of a replay, and its visits."""
        words = ["valgrind", "--tool=callgrind", f"--callgrind-out-file={self.folder}/counted"]
        words += [self.program, "replay", self.file("stack", stack), self.file("script", script), "--run", "layered", "--count"]
        done = subprocess.run(words, stdout=subprocess.PIPE, stderr=subprocess.PIPE, check=True)
        refs = re.search(r"refs:\s*([\d,]+)", done.stderr.decode())
        visits = re.search(r"^visits (\d+)$", done.stdout.decode(), re.M)
        return int(refs[1].replace(",", "")), int(visits[1])

    def visit(self, layer):
        script = "group 1 stamp 1 members 1\n" + "cast 0 -\n" * CASTS
        few, many = (self.counted(f"{BELOW}{layer}stack {{ back; {'one; ' * count}}}\n", script) for count in (3, 23))
        return (many[0] - few[0]) / (many[1] - few[1])


def main():
    program = sys.argv[1] if len(sys.argv) > 1 else f"{TOP}/crates/stackc/out/stackc"
    if len(sys.argv) <= 1:
        subprocess.run([f"{TOP}/stackc"], stderr=subprocess.DEVNULL, check=False)
    with tempfile.TemporaryDirectory() as folder:
        bench = Bench(program, folder)
        for name, layer in KINDS.items():
            print(f"{name}: {bench.visit(layer):.0f} instructions a visit", flush=True)
        stack = "stack { " + "".join(f"{word}; " for word in LIBRARY) + "}\n"
        script = "group 1 stamp 1 members 3\n" + "".join(f"cast {i % 3} {'61' * 64}\ntick {i % 3} {i}\n" for i in range(CASTS))
        count, visits = bench.counted(stack, script)
        print(f"all library layers: {count / visits:.0f} instructions a visit, of {visits} visits")


if __name__ == "__main__":
    main()

#!/usr/bin/env python3
"""Times replays of a stack of all library layers among three members, and loads, layer by layer and by bypasses.

Run it from any folder: bench/library.py [CASTS] [PROGRAM]. It makes a script of n casts of 64 bytes over a lossless network: each packet is
given once to each member that it is for, in order, and all clocks tick. It prints the processor time of a replay of half as many casts and of all,
the least of five runs, and the same of loads of as many events; and the instructions of each, from the program's start to its end, where
there is valgrind. The program is the one that ./stackc builds.
"""
import os
import re
import resource
import shutil
import subprocess
import sys
import tempfile

TOP = os.path.dirname(os.path.dirname(os.path.abspath(__file__)))
LIBRARY = "bottom mnak pt2pt pt2ptw mflow frag collect stable local total suspect elect sync intra top".split()
MEMBERS = 3
ROUND = 30


class Bench:
    def __init__(self, program, folder):
        self.program, self.folder = program, folder
        self.stack = self.file("library.layers", "stack { " + "".join(f"{word}; " for word in LIBRARY) + "}\n")

    def file(self, name, text):
        path = os.path.join(self.folder, name)
        with open(path, "w", encoding="ascii") as file:
            file.write(text)
        return path

    def run(self, words, counting=()):
        return subprocess.run([*counting, self.program, *words], stdout=subprocess.PIPE, stderr=subprocess.PIPE, check=True)

    def packets(self, lines):
        """The packets of a script so far, each with the members that it is for."""
        path = self.file("growing.script", "\n".join(lines) + "\n")
        report = self.run(["replay", self.stack, path, "--run", "layered"]).stdout.decode()
        sent = [line.split()[1:4] for line in report.splitlines() if line.startswith("packet ")]
        return [(int(k), [i for i in range(MEMBERS) if i != int(m) and d in ("all", str(i))]) for k, m, d in sent]

    def script(self, casts):
        """Rounds of casts and ticks, after each of which all packets are given, and those that are sent for them, until none is left."""
        lines, given = [f"group 1 stamp 1 members {MEMBERS}"], 0
        for first in range(0, casts, ROUND):
            for i in range(first, min(casts, first + ROUND)):
                lines.append(f"cast {i % MEMBERS} {bytes((i + j) % 256 for j in range(64)).hex()}")
            lines += [f"tick {i} {first}" for i in range(MEMBERS)]
            for _ in range(16):
                fresh = self.packets(lines)[given:]
                if not fresh:
                    break
                lines += [f"give {k} {i}" for k, members in fresh for i in members]
                given += len(fresh)
        return lines

    def seconds(self, words):
        least = None
        for _ in range(5):
            before = resource.getrusage(resource.RUSAGE_CHILDREN)
            self.run(words)
            after = resource.getrusage(resource.RUSAGE_CHILDREN)
            took = after.ru_utime + after.ru_stime - before.ru_utime - before.ru_stime
            least = took if least is None else min(least, took)
        return least

    def instructions(self, words):
        """How many instructions the program takes, if valgrind can tell."""
        if not shutil.which("valgrind"):
            return None
        counting = ["valgrind", "--tool=callgrind", f"--callgrind-out-file={self.folder}/counted"]
        found = re.search(r"refs:\s*([\d,]+)", self.run(words, counting).stderr.decode())
        return int(found[1].replace(",", "")) if found else None

    def measure(self, name, events, words):
        counted = self.instructions(words)
        text = f", {counted:,} instructions, {counted // max(1, events):,} an event" if counted else ""
        print(f"{name}, {events} events: {self.seconds(words):.3f} s of processor time{text}", flush=True)


def main():
    casts = int(sys.argv[1]) if len(sys.argv) > 1 else 600
    program = sys.argv[2] if len(sys.argv) > 2 else f"{TOP}/crates/stackc/out/stackc"
    if len(sys.argv) <= 2:
        subprocess.run([f"{TOP}/stackc"], stderr=subprocess.DEVNULL, check=False)
    with tempfile.TemporaryDirectory() as folder:
        bench = Bench(program, folder)
        for count in (casts // 2, casts):
            lines = bench.script(count)
            path = bench.file(f"{count}.script", "\n".join(lines) + "\n")
            events = len(lines) - 1
            most = min(events, 99_999)
            load = ["load", bench.stack, "--seed", "1", "--events", str(most), "--members", str(MEMBERS)]
            for mode in ("layered", "bypass"):
                bench.measure(f"replay of {count} casts, {mode}", events, ["replay", bench.stack, path, "--run", mode])
                bench.measure(f"load, {mode}", most, [*load, "--run", mode])


if __name__ == "__main__":
    main()

#!/usr/bin/env python3
"""Counts how often a replay takes memory, for a script and for one of twice as many casts.

Run it from any folder: bench/allocations.py [CASTS] [PROGRAM] [MODE]. The scripts are those of bench/library.py, over a stack of all library
layers among three members. It prints how many blocks are taken (malloc) and how many grow (realloc) in a replay of half as many casts and of all, and
what takes those that belong to the further events: the nearest two functions outside of the allocator and the collections. What is taken at
the beginning is the same for both scripts, and isn't shown. It wants valgrind. The program is the one that ./stackc builds.
"""
import collections
import os
import re
import subprocess
import sys
import tempfile

sys.dont_write_bytecode = True
from library import TOP, Bench

TAKING = ("malloc", "calloc", "realloc")
PASSED = re.compile(r"rattle_|std_alloc::|core::|std::|indexmap::")


def counted(bench, words):
    """How often each chain of callers takes memory, the nearest function first, as (call, chain)."""
    path = os.path.join(bench.folder, "called")
    counting = ["valgrind", "--tool=callgrind", f"--callgrind-out-file={path}", "--compress-strings=no", "--compress-pos=no"]
    bench.run(words, counting + [f"--separate-callers12={call}" for call in TAKING])
    calls, taken = collections.Counter(), None
    with open(path, encoding="utf-8") as lines:
        for line in lines:
            if line.startswith("cfn="):
                chain = line[4:].strip().split("'")
                taken = (chain[0], tuple(chain[1:])) if chain[0] in TAKING else None
            elif line.startswith("calls=") and taken:
                calls[taken] += int(line[6:].split()[0])
                taken = None
    return calls


def place(chain):
    """The nearest two functions of a chain outside of the allocator and the collections."""
    own = [re.sub(r"::<#\w+>", "", name) for name in chain if not PASSED.match(name)]
    return " in ".join(own[:2]) or "the system"


def total(calls, words):
    return sum(count for (call, _), count in calls.items() if call in words)


def main():
    casts = int(sys.argv[1]) if len(sys.argv) > 1 else 600
    program = sys.argv[2] if len(sys.argv) > 2 else f"{TOP}/crates/stackc/out/stackc"
    mode = sys.argv[3] if len(sys.argv) > 3 else "layered"
    if len(sys.argv) <= 2:
        subprocess.run([f"{TOP}/stackc"], stderr=subprocess.DEVNULL, check=False)
    with tempfile.TemporaryDirectory() as folder:
        bench, runs = Bench(program, folder), []
        for count in (casts // 2, casts):
            lines = bench.script(count)
            path = bench.file(f"{count}.script", "\n".join(lines) + "\n")
            calls = counted(bench, ["replay", bench.stack, path, "--run", mode])
            runs.append((len(lines) - 1, calls))
            taken, grown = total(calls, ("malloc", "calloc")), total(calls, ("realloc",))
            print(f"replay of {count} casts, {len(lines) - 1} events: {taken} blocks taken, {grown} grown", flush=True)
        more, further = runs[1][0] - runs[0][0], collections.Counter()
        for calls, sign in ((runs[1][1], 1), (runs[0][1], -1)):
            for (call, chain), count in calls.items():
                further[call, place(chain)] += sign * count
        print(f"for {more} further events:")
        for (call, name), count in further.most_common():
            if count:
                print(f"{count:8} {call:8} {name}")


if __name__ == "__main__":
    main()

#!/usr/bin/env python3
"""Times a replay of the counter layer: casts of 64 bytes and gives among 32 members.

Run it from any folder: bench/replay.py [EVENTS]. It builds the program by ./stackc where that is needed, and prints the
processor time of a replay of half as many events and of all of them.
"""
import os
import resource
import subprocess
import sys
import tempfile

TOP = os.path.dirname(os.path.dirname(os.path.abspath(__file__)))


def script(events):
    """One cast, then gives of the packets so far, so that the text stays within a script's 4,194,304 bytes."""
    lines, packets, seed = ["group 1 stamp 7 members 32"], 0, 1
    for i in range(events):
        seed = (1664525 * seed + 1013904223) % 2**32
        draw = seed >> 16
        if i % 5 == 0:
            lines.append(f"cast {draw % 32} {bytes((i + j) % 256 for j in range(64)).hex()}")
            packets += 1
        else:
            lines.append(f"give {1 + draw % packets} {(draw >> 5) % 32}")
    return "\n".join(lines) + "\n"


def seconds(events, folder, mode):
    path = os.path.join(folder, f"{events}.script")
    with open(path, "w", encoding="ascii") as file:
        file.write(script(events))
    before = resource.getrusage(resource.RUSAGE_CHILDREN)
    words = [f"{TOP}/crates/stackc/out/stackc", "replay", f"{TOP}/examples/counter.layers", path, "--run", mode]
    ran = subprocess.run(words, stdout=subprocess.PIPE, check=True)
    after = resource.getrusage(resource.RUSAGE_CHILDREN)
    last = ran.stdout.rstrip(b"\n").rsplit(b"\n", 1)[-1]
    assert last == b"end %d" % events, last
    return after.ru_utime + after.ru_stime - before.ru_utime - before.ru_stime


def main():
    events = int(sys.argv[1]) if len(sys.argv) > 1 else 99_999
    subprocess.run([f"{TOP}/stackc"], stderr=subprocess.DEVNULL, check=False)
    with tempfile.TemporaryDirectory() as folder:
        for count in (events // 2, events):
            for mode in ("layered", "bypass"):
                print(f"{count} events, {mode}: {min(seconds(count, folder, mode) for _ in range(5)):.3f} s of processor time")


main()

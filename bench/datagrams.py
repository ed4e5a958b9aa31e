#!/usr/bin/env python3
"""Counts in how many instructions a member reads a datagram of the stack of all library layers.

Run it from any folder: bench/datagrams.py [DATAGRAMS] [PROGRAM]. It takes valgrind. The independent reading writes a cast of 64 bytes among three
members in full and in short. Each of the two reaches member 1 n times,

    with a broken chain     refused at the last header, or in the last field, when all but the body was read
    as it is                read whole, fitted to its plan, and a repeat, which the second layer drops: two visits

and is compared with the same bytes for another group, which are refused when only what stands before the group was read. So the script and its reading cost the same.
It also prints how much oftener memory is asked for than for the other group: for broken chains never, else a few times in all, as the report's buffers grow.
"""
import os
import re
import subprocess
import sys
import tempfile

TOP = os.path.dirname(os.path.dirname(os.path.abspath(__file__)))
sys.path.insert(0, f"{TOP}/diff")
import running

LIBRARY = "bottom mnak pt2pt pt2ptw mflow frag collect stable local total suspect elect sync intra top".split()
STACK = "stack { " + "".join(f"{word}; " for word in LIBRARY) + "}\n"
FIRST = "group 1 stamp 1 members 3\n"
BODY = bytes(range(64))
PREAMBLE = 19


def spellings():
    """The cast in full and in short, each with how long it is without its body."""
    script = f"{FIRST}cast 0 {BODY.hex()}\n"
    for mode in ("layered", "bypass"):
        report, _, _ = running.replay(STACK.encode(), script.encode(), mode, True)
        data = bytes.fromhex(re.search(r"^wire \d+ ([0-9a-f]+)$", report, re.M)[1])
        yield data, len(data) - len(BODY)


def cases(data, head):
    broken = data[:head - 1] + b"\xff" + data[head:] if data[0] == 0xE5 else data[:head - 1]
    return (("broken chain", broken), ("as it is", data))


def for_another_group(data):
    return data[:4] + b"\2" + data[5:]


class Counter:
    def __init__(self, program, folder):
        self.program, self.folder = program, folder

    def count(self, datagram, times):
        """Instructions, and calls for memory, of a replay in which a datagram comes n times."""
        for name, text in (("stack", STACK), ("script", FIRST + f"raw 1 {datagram.hex()}\n" * times)):
            with open(f"{self.folder}/{name}", "w", encoding="ascii") as file:
                file.write(text)
        counts = f"{self.folder}/counts"
        words = ["replay", f"{self.folder}/stack", f"{self.folder}/script", "--run", "layered"]
        counting = ["valgrind", "--tool=callgrind", f"--callgrind-out-file={counts}"]
        said = subprocess.run([*counting, self.program, *words], stdout=subprocess.PIPE, stderr=subprocess.PIPE, check=True)
        refs = re.search(r"refs:\s*([\d,]+)", said.stderr.decode())
        return int(refs[1].replace(",", "")), self.asked(counts)

    @staticmethod
    def asked(counts):
        """How many calls there are of malloc, calloc and realloc in callgrind's file."""
        names, into, calls = {}, "", 0
        with open(counts, encoding="utf-8") as file:
            for line in file:
                named = re.match(r"c?fn=(\(\d+\))(?: (.*))?$", line)
                if named:
                    if named[2]:
                        names[named[1]] = named[2]
                    into = names[named[1]] if line[0] == "c" else into
                elif line.startswith("calls=") and re.match(r"(malloc|calloc|realloc)\b", into):
                    calls += int(line[6:].split()[0])
        return calls


def main():
    times = int(sys.argv[1]) if len(sys.argv) > 1 else 2000
    program = sys.argv[2] if len(sys.argv) > 2 else f"{TOP}/crates/stackc/out/stackc"
    if len(sys.argv) <= 2:
        subprocess.run([f"{TOP}/stackc"], stderr=subprocess.DEVNULL, check=False)
    with tempfile.TemporaryDirectory() as folder:
        counter = Counter(program, folder)
        for form, (data, head) in zip(("in full", "in short"), spellings()):
            print(f"{form}: {len(data)} bytes, {head - PREAMBLE} of them headers", flush=True)
            for name, datagram in cases(data, head):
                instructions, asked = (
                    new - old for new, old in zip(counter.count(datagram, times), counter.count(for_another_group(datagram), times))
                )
                print(f"  {name}: {instructions // times} instructions a datagram, memory asked for {asked} times", flush=True)



main()

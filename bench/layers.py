#!/usr/bin/env python3
"""Makes the tables of stacks in docs/LIBRARY.md: what they cost, and what hunts find.

    STACKC=PROGRAM STACKHUNT=PROGRAM bench/layers.py cost [CASTS]     over a network that loses nothing and delays nothing, three members, bodies of 64 bytes
    STACKC=PROGRAM STACKHUNT=PROGRAM bench/layers.py hunts [RUNS]     three members, 400 events, from seed 1 on

A packet to all counts once. A step is common of those that a bypass could make: casts, and packets that are received. No clock ticks: a tick costs a
visit of each layer and member, and some pings.
"""
import os
import re
import subprocess
import sys
import tempfile

TOP = os.path.dirname(os.path.dirname(os.path.abspath(__file__)))
MEMBERS = 3
ROUND = 8  # casts between two of which all packets are given: not more than any stack takes at once
FIFTEEN = "stack { bottom; mnak; pt2pt; pt2ptw; mflow; frag; collect; stable; local; total; suspect; elect; sync; intra; top; }\n"
ORDER = "stack { bottom; mnak; pt2pt; pt2ptw; local; total; }\n"
SHIPPED = ("strong", "safe", "library", "fifo")
CASTERS = {"rank 0": (0,), "rank 1": (1,), "all in turn": (0, 1, 2)}
LAWS = ("sender", "total", "same")


class Bench:
    def __init__(self, folder):
        self.folder = folder
        self.stacks = {name: os.path.join(TOP, "layers", f"{name}.layers") for name in SHIPPED}
        for name, text in (("the fifteen", FIFTEEN), ("order of built-in ones", ORDER)):
            self.stacks[name] = self.file(name, text)

    def file(self, name, text):
        path = os.path.join(self.folder, name)
        with open(path, "w", encoding="ascii") as file:
            file.write(text)
        return path

    def stackc(self, *words):
        return subprocess.run([os.environ["STACKC"], *words], stdout=subprocess.PIPE, stderr=subprocess.PIPE, check=True).stdout.decode()

    def report(self, stack, lines, *more):
        return self.stackc("replay", stack, self.file("a.script", "\n".join(lines) + "\n"), *more)

    def script(self, stack, casters, casts):
        """Rounds of casts, after each of which all packets are given, and those that are sent for them, until none is left."""
        lines, given = [f"group 1 stamp 1 members {MEMBERS}"], 0
        for first in range(0, casts, ROUND):
            lines += [f"cast {casters[i % len(casters)]} {bytes((i + j) % 256 for j in range(64)).hex()}" for i in range(first, first + ROUND)]
            while True:
                sent = [line.split()[1:4] for line in self.report(stack, lines).splitlines() if line.startswith("packet ")]
                if len(sent) == given:
                    break
                lines += [f"give {k} {i}" for k, me, to in sent[given:] for i in range(MEMBERS) if i != int(me) and to in ("all", str(i))]
                given = len(sent)
        return lines

    def cost(self, stack, casters, casts):
        """Of each cast: packets, visits layer by layer and by bypasses; and the share of common steps, in a hundred."""
        lines = self.script(stack, casters, casts)
        reports = {mode: self.report(stack, lines, "--run", mode, "--count") for mode in ("layered", "bypass")}
        packets = len(re.findall(r"^packet ", reports["bypass"], re.M))
        delivered = len(re.findall(r"^deliver \d cast ", reports["bypass"], re.M))
        visits = {mode: int(re.search(r"^visits (\d+)$", report, re.M)[1]) for mode, report in reports.items()}
        missed = len(re.findall(r"^miss ", self.stackc("explain", stack, self.file("a.script", "\n".join(lines) + "\n")), re.M))
        if delivered != MEMBERS * casts:
            print(f"of {casts} casts there are {delivered} deliveries", file=sys.stderr)
        steps = len(lines) - 1
        return packets / casts, visits["layered"] / casts, visits["bypass"] / casts, 100 * (steps - missed) / steps

    def hunt(self, stack, law, runs):
        """`holds`, or the run that breaks a law and how many of its events are left."""
        words = [os.environ["STACKHUNT"], stack, "--law", law, "--members", str(MEMBERS), "--events", "400", "--runs", str(runs), "--seed", "1"]
        found = subprocess.run(words, stdout=subprocess.PIPE, stderr=subprocess.PIPE, check=False)
        if found.returncode == 0:
            return "holds"
        script = found.stdout.decode()
        events = sum(not line.startswith(("#", "group ")) for line in script.splitlines())
        run = re.search(r"^# run (\d+) ", script, re.M)[1]
        return f"run {run}, {events} events"


def main():
    what, count = sys.argv[1], int(sys.argv[2]) if len(sys.argv) > 2 else None
    with tempfile.TemporaryDirectory() as folder:
        bench = Bench(folder)
        if what == "cost":
            print("| Stack | Who casts | Packets | Visits | by bypasses | Common |\n|---|---|---|---|---|---|")
            for name, stack in bench.stacks.items():
                for who, casters in CASTERS.items():
                    numbers = bench.cost(stack, casters, count or 96)
                    print(f"| {name} | {who} | {numbers[0]:.2f} | {numbers[1]:.1f} | {numbers[2]:.1f} | {numbers[3]:.1f} % |", flush=True)
        else:
            print("| Stack | sender | total | same |\n|---|---|---|---|")
            for name, stack in bench.stacks.items():
                print(f"| {name} | " + " | ".join(bench.hunt(stack, law, count or 1000) for law in LAWS) + " |", flush=True)


if __name__ == "__main__":
    main()

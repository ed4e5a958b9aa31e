#!/usr/bin/env python3
"""Proves and builds a program, its crates side by side, and says how far it is: tools/prove.py TOP NAME, run by ./stackc --prove.

One `rt all check` in the program's folder has all crates that it stands on, and orders them itself: several rt would wait for each other, since each takes
the folders of all crates below its own for itself. Then `rt run` has only the program left. What a crate costs stands in bench/costs.tsv.
"""
import os
import re
import signal
import subprocess
import sys
import time

USUAL = 20  # seconds of a crate that bench/costs.tsv doesn't have
EACH = 2_000_000  # kilobytes of memory that a check may take


def crates_below(top, name):
    """The crates that a crate stands on, and itself."""
    uses, found = {}, []
    with open(os.path.join(top, "crates.txt"), encoding="utf-8") as file:
        for line in file:
            crate, sign, rest = line.split("#")[0].partition(":")
            if sign:
                uses[crate.split()[0]] = rest.split()

    def visit(crate):
        if crate in uses and crate not in found:
            found.append(crate)
            for other in uses[crate]:
                visit(other)

    visit(name)
    return found


def costs_of(top, crates):
    """The seconds that the proof of each crate takes."""
    known = {}
    with open(os.path.join(top, "bench", "costs.tsv"), encoding="utf-8") as file:
        for line in file:
            if not line.startswith("#"):
                crate, seconds = line.split("\t")
                known[crate] = int(seconds)
    return {crate: known.get(crate, USUAL) for crate in crates}


def most_at_once():
    """As many crates at a time as there are processors, and memory for each."""
    with open("/proc/meminfo", encoding="utf-8") as file:
        free = int(re.search(r"^MemAvailable:\s+(\d+)", file.read(), re.M)[1])
    return max(1, min(len(os.sched_getaffinity(0)), free // EACH))


class Progress:
    """How many crates are done, and what is left by their costs: one line that is written anew at a terminal, or a line for each crate."""

    def __init__(self, name, costs, at_once):
        self.name, self.costs, self.at_once = name, costs, at_once
        self.done, self.begun, self.is_shown = set(), time.monotonic(), sys.stderr.isatty()

    def line(self):
        whole, done = sum(self.costs.values()), sum(self.costs[it] for it in self.done)
        spent = time.monotonic() - self.begun
        # What was done tells how fast it goes, once it is a tenth.
        left = spent * (whole - done) / done if 10 * done > whole else (whole - done) / self.at_once
        return f"{self.name}: {len(self.done)} of {len(self.costs)} crates, {100 * done // whole} % of the work, about {round(left / 60)} minutes left"

    def add(self, crate):
        if crate in self.costs and crate not in self.done:
            self.done.add(crate)
            self.show()

    def show(self):
        sys.stderr.write(f"\r{self.line()}\033[K" if self.is_shown else f"{self.line()}\n")
        sys.stderr.flush()

    def end(self):
        if self.is_shown:
            sys.stderr.write("\n")


class Ended(Exception):
    """A signal that ends this."""


def end(number, _):
    raise Ended(number)


def run(words, folder, log, progress=None):
    """Runs rt, with what it says in the log, and returns its status; it ends where this is ended."""
    how = {"cwd": folder, "stdin": subprocess.DEVNULL, "stdout": subprocess.PIPE, "stderr": subprocess.STDOUT}
    with subprocess.Popen(words, **how) as rt:
        try:
            for line in rt.stdout:
                log.write(line)
                log.flush()
                found = re.match(rb"== (\w+)$", line.rstrip())
                if progress and found:
                    progress.add(found[1].decode())
        except Ended:
            rt.terminate()
            raise
    return rt.returncode


def prove(top, name, path):
    """Whether the program is proved and built; what rt says goes to the log at path."""
    folder = os.path.join(top, "crates", name)
    at_once = most_at_once()
    progress = Progress(name, costs_of(top, crates_below(top, name)), at_once)
    with open(path, "wb") as log:
        progress.show()
        status = run(["rt", "all", "check", "--jobs", str(at_once)], folder, log, progress)
        progress.end()
        if status:
            return False
        # This also runs the program: without words it refuses them, which is no failure of the build.
        run(["rt", "run"], folder, log)
    with open(path, "rb") as log:
        return b"\nwords: refused" in log.read()


def main():
    top, name = sys.argv[1:]
    path = os.path.join(top, "build", f"{name}.log")
    os.makedirs(os.path.dirname(path), exist_ok=True)
    for number in (signal.SIGINT, signal.SIGTERM, signal.SIGHUP):
        signal.signal(number, end)
    print(f"{name}: proving and building, which takes an hour or so at first ({path})", file=sys.stderr)
    try:
        is_built = prove(top, name, path)
    except Ended as number:
        sys.exit(128 + int(number.args[0]))
    if not is_built:
        print(f"{name}: not built; see {path}", file=sys.stderr)
        sys.exit(70)
    print(f"{name}: proved and built: {os.path.join(top, 'crates', name, 'out', name)}", file=sys.stderr)


if __name__ == "__main__":
    main()

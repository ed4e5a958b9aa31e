#!/usr/bin/env python3
"""Hunts by the program in $STACKHUNT: what it writes breaks the law by $STACKC, a stack that keeps a law is said to hold, and what can't be hunted over is refused."""
import os
import subprocess
import sys
import tempfile

from tree import TOP

PROGRAM = os.environ.get("STACKHUNT", "")
STACKC = os.environ["STACKC"]
COUNTER = os.path.join(TOP, "examples", "counter.layers")
STYLES = ("mixed", "flood", "crash", "part")
WRONG = []


def wants(what, is_so):
    if not is_so:
        WRONG.append(what)
        print(f"not so: {what}")


def ran(*words):
    found = subprocess.run(words, stdin=subprocess.DEVNULL, stdout=subprocess.PIPE, stderr=subprocess.PIPE, timeout=120)
    return found.returncode, found.stdout.decode(), found.stderr.decode()


def hunted(path, law, *more):
    words = ["--law", law, "--members", "3", "--events", "100", "--seed", "1"]
    return ran(PROGRAM, path, *words, *(more or ["--runs", "1000"]))


def put(folder, name, text):
    path = os.path.join(folder, name)
    with open(path, "w", encoding="utf-8") as file:
        file.write(text)
    return path


def try_find(folder, law):
    """A layer that only counts delivers casts as they come: what is found breaks the law by the other program, at the lines that it tells."""
    status, script, said = hunted(COUNTER, law)
    wants(f"{law}: a breach is found", (status, said) == (8, "breach\n"))
    status, report, _said = ran(STACKC, "replay", COUNTER, put(folder, "a.script", script))
    wants(f"{law}: what is found is a script", status == 0)
    status, finding, _said = ran(STACKC, "audit", put(folder, "a.report", report), "--law", law)
    wants(f"{law}: its report breaks the law", status == 8)
    lines = report.splitlines()
    told = [f"# breaks {law}"] + [f"# line {number}: {lines[int(number) - 1]}" for number in finding.split()[1:]]
    wants(f"{law}: the comments tell how", script.splitlines()[:3] == told)
    wants(f"{law}: it is small", len(script.splitlines()) <= 16)
    wants(f"{law}: the same words find the same", hunted(COUNTER, law)[1] == script)


def try_styles(ordered):
    """Each style finds what breaks at once, and holds what keeps an order; without the word it is the mix, and no other word is a style."""
    for style in STYLES:
        status, script, _said = hunted(COUNTER, "total", "--runs", "1000", "--style", style)
        wants(f"{style}: a breach is found", status == 8)
        wants(f"{style}: it is small", len(script.splitlines()) <= 10)
        wants(f"{style}: a stack that keeps an order holds", hunted(ordered, "total", "--runs", "20", "--style", style) == (0, "holds 20\n", ""))
    wants("without the word it is the mix", hunted(COUNTER, "sender", "--runs", "1000", "--style", "mixed") == hunted(COUNTER, "sender"))
    wants("no style of that name", hunted(COUNTER, "total", "--runs", "1", "--style", "floods") == (2, "", "words: refused\n"))


def main():
    if not PROGRAM:
        print("hunts: STACKHUNT names no program, so none was tried")
        return 0
    with tempfile.TemporaryDirectory(prefix="stackc-") as folder:
        for law in ("sender", "total"):
            try_find(folder, law)
        ordered = put(folder, "ordered.layers", "stack { bottom; mnak; local; total; }\n")
        try_styles(ordered)
        wants("a stack that keeps an order holds", hunted(ordered, "total", "--runs", "50") == (0, "holds 50\n", ""))
        wants("no run begins when the time is up", hunted(ordered, "total", "--runs", "4294967295", "--seconds", "1")[0] == 0)
        bad = put(folder, "bad.layers", "stack { nowhere; }\n")
        wants("a stack file is refused", hunted(bad, "same") == (1, "", "file: unknown 1:9\n"))
        wants("no law of that name", hunted(ordered, "none")[0] == 2)
        wants("some runs have to be asked for", hunted(ordered, "total", "--runs", "0") == (2, "", "words: refused\n"))
        wants("a file isn't there", hunted(os.path.join(folder, "none"), "total") == (4, "", "read fault\n"))
    print(f"hunts: 2 found, {len(WRONG)} not so")
    return 1 if WRONG else 0


if __name__ == "__main__":
    sys.exit(main())

#!/usr/bin/env python3
"""Compares the tables of words with the program in $STACKC, and with those in $RUNCHART, $STACKHUNT and $STACKCHECK, if these are set: words that a table allows aren't
refused with 2, and words that it doesn't are.

No file that the words name is there, so a job that is seen in them ends with 4.
"""
import os
import random
import subprocess
import sys

sys.path.insert(0, os.path.join(os.path.dirname(os.path.abspath(__file__)), ".."))
from words import Table  # noqa: E402

VALUES = {
    "number": lambda form, r: r.choice([form[1], form[2], str(int(form[2]) + 1), "0", "1", "01", "+1", "-1", "", "x", "7"]),
    "members": lambda form, r: r.choice(["0", "31", "32", "0,1", "1,0", "1,1", "0,", "", "0,31", "00", "0, 1", "0,2,5"]),
    "file": lambda form, r: r.choice(["t.bypasses", "", "x", "layered"]),
    "one": lambda form, r: r.choice(form[1:] + [form[1].upper(), "", "x"]),
    "text": lambda form, r: r.choice(["bottom", "", "x", "no layer"]),
}


def option_words(table, option, value, r):
    """An option with a value, in one of the ways in which it can be written."""
    if value is None:
        return r.choice([[option]] * 8 + [[f"{option}="], [f"{option}=1"]])
    form = table.words[value][0]
    text = VALUES[form[0]](form, r) if r.random() < 0.4 else good(form, r)
    return r.choice([[option, text], [f"{option}={text}"]] * 6 + [[option]])


def good(form, r):
    return {"number": lambda: form[1 + r.randrange(2)], "members": lambda: "0,31", "file": lambda: "t.bypasses", "one": lambda: r.choice(form[1:]), "text": lambda: "bottom"}[form[0]]()


def drawn(table, r):
    """Words of a job with few changes: options left out, doubled or of another job, places left out or added, words in another order."""
    job = r.choice(list(table.jobs.values()))
    every = list(table.options().items())
    groups = [[f"nothing-{k}"] for k in range(len(job.places) + r.choice([0] * 12 + [1, -1]))]
    if job.name:
        groups[:0] = [[job.name if r.random() < 0.97 else r.choice(["chek", "", "help"])]]
    for option, value in job.options.items():
        if r.random() < (0.97 if option in job.needed else 0.5):
            groups.insert(r.randrange(len(groups) + 1), option_words(table, option, value, r))
    if r.random() < 0.15:
        option, value = r.choice(every)
        groups.insert(r.randrange(len(groups) + 1), option_words(table, option, value, r))
    if r.random() < 0.05:
        groups.insert(r.randrange(len(groups) + 1), [r.choice(["--", "-", "-x", "--no", "--help", "--version", "--trial", "---", "-1"])])
    return [word for group in groups for word in group]


def compared(name, path, count):
    """How many of some words a program takes, and at how many it and its table differ."""
    table, r, taken, differs = Table(name), random.Random(1), 0, 0
    for _ in range(count):
        words = drawn(table, r)
        ran = subprocess.run([path, *words], stdin=subprocess.DEVNULL, stdout=subprocess.PIPE, stderr=subprocess.PIPE)
        fault = table.fault(words)
        taken += fault is None
        if ran.returncode != (2 if fault else 4):
            differs += 1
            print(f"{name} {words}: {ran.returncode} {ran.stderr}, and the table says {fault or 'a job'}")
    return taken, differs


def main():
    count, wrong = int(sys.argv[1]) if len(sys.argv) > 1 else 1200, 0
    for name in ("stackc", "runchart", "stackhunt", "stackcheck"):
        path = os.environ.get(name.upper())
        if path:
            many = count if name == "stackc" else count // 4
            taken, differs = compared(name, path, many)
            wrong += differs
            print(f"words of {name}: {many} tried, {taken} of them allowed, {differs} differ")
    sys.exit(wrong != 0)


if __name__ == "__main__":
    main()

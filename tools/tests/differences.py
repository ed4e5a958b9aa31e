#!/usr/bin/env python3
"""Compares the program in $STACKC with the independent reading in diff/, on files and scripts drawn from fixed seeds, for a minute at most.

What diff/ does at length it does here shortly: files that are judged, bypasses, traces, explanations and replays. A run that the minute cuts off is told, and is
no difference. With no program in $STACKC the reading alone is compared with what is worked out by hand.
"""
import os
import subprocess
import sys
import time

DIFF = os.path.join(os.path.dirname(os.path.dirname(os.path.dirname(os.path.abspath(__file__)))), "diff")
MOST_SECONDS = 60
ALONE = [
    ("fusing.py", "--rows"),
    ("explain.py", "--rows"),
]
OF_THE_PROGRAM = [
    ("explain.py", "rows"),
    ("synth.py", "rows"),
    ("check.py", "150", "7"),
    ("replay.py", "library", "15", "7"),
    ("replay.py", "random", "15", "7"),
    ("explain.py", "library", "10", "7"),
    ("synth.py", "library", "5", "7"),
    ("packs.py", "library", "2", "7"),
]


def main():
    program = os.environ.get("STACKC")
    runs = ALONE + (OF_THE_PROGRAM if program else [])
    end, failed, cut = time.monotonic() + MOST_SECONDS, [], []
    for name, *words in runs:
        command = [sys.executable, os.path.join(DIFF, name), *words, *([program] if name == "check.py" else [])]
        left = end - time.monotonic()
        try:
            ran = subprocess.run(command, stdout=subprocess.PIPE, stderr=subprocess.STDOUT, timeout=max(left, 0.1), text=True)
        except subprocess.TimeoutExpired:
            cut.append(" ".join((name, *words)))
            continue
        if ran.returncode:
            failed.append(" ".join((name, *words)))
            print(f"diff/{failed[-1]} ended with {ran.returncode}:", *ran.stdout.split("\n")[-30:], sep="\n")
    if cut:
        print("differences: no time for", "; ".join(cut))
    print(f"differences: {len(runs) - len(cut)} seeded runs of diff/, {len(failed)} with differences")
    return int(bool(failed))


if __name__ == "__main__":
    sys.exit(main())

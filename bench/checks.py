#!/usr/bin/env python3
"""Bounded checks of the changed layers of bench/hunts.py: the shortest breach of each, and how far the stacks as they are hold.

usage: STACKCHECK=PROGRAM STACKC=PROGRAM bench/checks.py [NAME..]

For each layer the acts grow (casts of each member, repeats, ticks, leaves) until a breach is found within a minute. It prints the law, the acts, the events of
the shortest breach, the scripts that the last family that holds has, whether the script breaks the law by the other program, and the same of the stack as it is.
"""
import os
import subprocess
import sys
import tempfile
import time

os.environ.setdefault("STACKHUNT", "")

from hunts import CHANGED, STACKC, breaks, changed_file, plain_file, put

STACKCHECK = os.environ["STACKCHECK"]
MOST_EVENTS = 12
SECONDS = 60
# Casts, ticks and leaves of each member, repeats of a packet, and the bytes of a body.
BOUNDS = [(2, 0, 0, 0, 1), (2, 0, 0, 1, 1), (2, 1, 0, 1, 1), (3, 1, 0, 1, 1), (2, 1, 1, 1, 1), (2, 0, 0, 0, 3)]


def acts(members, casts, ticks, leaves, size):
    lines = [f"group 1 stamp 1 members {members}"]
    for member in range(members):
        lines += [f"cast {member} " + "".join(f"{16 * member + 3 * k + i:02x}" for i in range(size)) for k in range(casts)]
        lines += [f"tick {member} {1000 * (k + 1)}" for k in range(ticks)]
        lines += [f"leave {member}"] * leaves
    return "\n".join(lines) + "\n"


def checked(folder, path, law, members, bounds, events, seconds):
    casts, ticks, leaves, repeats, size = bounds
    file = put(folder, "a.acts", acts(members, casts, ticks, leaves, size))
    words = [STACKCHECK, path, file, "--law", law, "--events", str(events), "--repeats", str(repeats), "--seconds", str(seconds)]
    began = time.time()
    ran = subprocess.run(words, stdin=subprocess.DEVNULL, stdout=subprocess.PIPE, stderr=subprocess.PIPE, text=True)
    return ran.returncode, ran.stdout, time.time() - began


def told(bounds):
    return "C{} T{} L{} R{} bytes {}".format(*bounds)


def held(folder, layer, stack, law, members):
    """How far the stack as it is holds, with two casts of each member."""
    path = put(folder, "plain.layers", plain_file(layer, stack))
    status, line, seconds = checked(folder, path, law, members, BOUNDS[0], MOST_EVENTS, SECONDS)
    return f"{status}: {line.splitlines()[0] if line else ''} ({seconds:.1f} s)"


def main():
    with tempfile.TemporaryDirectory(prefix="checks-") as folder:
        print("| Layer | What is changed | Law | Acts | Events | Seconds | By the other program | As it is |")
        print("|---|---|---|---|---|---|---|---|")
        for what, layer, place, line, other, stack, law, members, _events in CHANGED:
            if sys.argv[1:] and layer not in sys.argv[1:]:
                continue
            path = put(folder, "changed.layers", changed_file(layer, place, line, other, stack))
            found = "| none | | | |"
            for bounds in BOUNDS:
                status, script, seconds = checked(folder, path, law, members, bounds, MOST_EVENTS, SECONDS)
                if status == 8:
                    count = sum(not text.startswith("#") for text in script.splitlines()) - 1
                    other_says = ("breaks it" if breaks(folder, path, law, script) else "DOES NOT BREAK IT") if STACKC else ""
                    found = f"| {told(bounds)} | {count} | {seconds:.2f} | {other_says} |"
                    break
            print(f"| {layer} | {what} | {law} {found} {held(folder, layer, stack, law, members)} |", flush=True)


if __name__ == "__main__":
    main()
